"""What goes on in one turn of a run: which groups of which instances, where control is, and why a port has no value.

A turn of a run is the cycle of that number of what `compile` writes, up to the first fault. So the text is run (tools/verilog.py), which takes a second for
some ten thousand cycles of a small design; it is cut off after SECONDS. Where all registers and words are as they were before, the run never ends, which is told.
"""
import time

import cells
import design as designs
import numbering
import sights
import verilog

SECONDS = 20


class Snapshot:
    """All registers and words of a run at a cycle, to see whether they come again."""

    def __init__(self, run, cycle):
        self.cycle = cycle
        self.scopes = [(scope, dict(scope.registers), {name: list(words) for name, words in scope.words.items()}) for scope in run.scopes()]

    def is_now(self):
        return all(scope.registers == registers for scope, registers, _ in self.scopes) and all(scope.words == words for scope, _, words in self.scopes)


class Moment:
    """A run of a design at a cycle. `again` are two cycles with one state, where they were seen; `is_there` whether it came to the turn that is asked for."""

    def __init__(self, design, text, words, turn):
        self.design, self.turn, self.cycle, self.again, self.is_there = design, turn, 0, None, True
        self.run = verilog.Run(text, words)
        self.parts = dict(numbering.module_names(design))
        self.bodies = numbering.modules_of(text)
        self.go_on(turn)

    def go_on(self, turn):
        kept, ends, first = Snapshot(self.run, 0), time.monotonic() + SECONDS, 0
        while self.cycle < turn:
            self.run.step()
            self.cycle += 1
            if kept.is_now():
                self.again = kept.cycle, self.cycle
                turn = self.cycle + (turn - self.cycle) % (self.cycle - kept.cycle)
                kept = Snapshot(self.run, -1)
                kept.is_now = lambda: False
            elif self.cycle == 2 * first + 1:
                kept, first = Snapshot(self.run, self.cycle), self.cycle
            if time.monotonic() > ends:
                self.is_there = self.cycle >= turn
                return

    def scopes(self):
        """Each instance of a component, with its name, its component and its scope."""
        def of(path, scope):
            part = self.parts[scope.module.name]
            yield path, part, scope
            for number, cell in enumerate(part.cells):
                inner = scope.inside.get(f'cx_i{number}')
                if inner and inner.module.name in self.parts:
                    yield from of(f'{path}.{cell.name}' if path else cell.name, inner)
        yield from of('', self.run.main)

    def control(self, part, scope):
        """The statements outside islands that control is at, and the groups that islands have active."""
        found, active = [], []
        for number, net in enumerate(numbering.wires(part)):
            if net.kind in ('at', 'active') and scope.value(f'cx_w{number}'):
                (found if net.kind == 'at' else active).append(net.of)
        return found, active

    def looks(self):
        """Of each instance that runs (main does, another where its go is 1) what can be seen in it, its statements that control is at, and what islands have active."""
        found, by_path = [], {}
        for path, part, scope in self.scopes():
            outer = by_path.get(path.rpartition('.')[0]) if path else None
            if path and (outer is None or scope.value('go') != 1):
                continue
            at, active = self.control(part, scope)
            groups = {it.name for it in [*at, *active] if it.kind == 'enable'} | {f'invoke {it.called}' for it in at if it.kind == 'invoke'}
            groups |= {it.comb for it in at if it.kind in ('if', 'while') and it.comb}
            by_path[path] = sights.Look(self.design, part, scope, groups, path, outer)
            found.append((path, by_path[path], [it for it in at if it.kind not in ('par',)], active))
        return found

    def lines(self):
        """What goes on, a line for each instance and statement."""
        for path, look, at, active in self.looks():
            name = f'{path} ({look.part.name})' if path else 'main'
            if not at:
                yield f'{name}: control has ended'
            for it in at:
                yield f'{name}: {told_of(look, it, active)}'

    def fault(self, path, kind):
        """Why a port has no value: a Fault, or None where this does not see it."""
        looks = {name: look for name, look, _, _ in self.looks()}
        head, _, port = path.rpartition('.')
        instance, _, cell = head.rpartition('.')
        look = looks.get(instance) if port else looks.get('')
        if '[' in path:
            instance, _, hole = path.rpartition('.')
            look = looks.get(instance)
        if look is None:
            return None
        operand = operand_of(look, path, instance, cell, port)
        found = look.operand(operand) if operand else None
        if kind == 'range' and operand:
            memory = look.part.cell(operand.cell)
            values = [look.operand(operand_of(look, '', instance, operand.cell, f'addr{at}')) for at in range(cells.sizes_of(memory.kind))]
            note = '' if any(isinstance(it, sights.Fault) for it in values) else sights.out_of_range(memory, values)
            drivers, _ = look.drivers(operand.text)
            found = sights.Fault('range', operand.text, [path], look, drivers, drivers, [], note)
        return found if isinstance(found, sights.Fault) else None


def operand_of(look, path, instance, cell, port):
    """The operand that a path of a fault ends with."""
    name = path[len(instance) + 1:] if instance else path
    for _, assign in look.part.all_assigns():
        for it in [assign.target, *assign.read()]:
            if it.text == name or (not path and it.cell == cell and it.port == port):
                return it
    tests = [it.test for it in look.part.control.all() if it.test]
    named = next((it for it in tests if it.text == name), None)
    if named is None and look.part.cell(cell):
        return designs.Operand(look.part.token, look.part.token, cell=cell, port=port)
    return named


def told_of(look, it, active):
    """A statement that control is at, in words with its line."""
    if it.kind == 'enable' and not it.static:
        done = look.operand(next(assign.target for assign in look.part.groups[it.name].assigns if assign.target.group == it.name))
        ends = 'is done: its last turn' if done == 1 else 'goes'
        return f'group {it.name} {ends} (line {look.part.groups[it.name].line}; enabled in line {it.line})'
    if it.kind in ('if', 'while'):
        with_comb = f', with comb group {it.comb} (line {look.part.groups[it.comb].line})' if it.comb else ''
        return f'the test of `{it.told()}` (line {it.line}){with_comb}'
    if it.kind == 'invoke':
        return f'`invoke {it.name}` (line {it.line})'
    if it.static:
        groups = ', '.join(f'{one.name} (line {look.part.groups[one.name].line})' for one in active) or 'no group, its last turn'
        return f'the island `{it.told()}` (line {it.line}), with {groups}'
    return f'an idle turn of `{it.told()}` (line {it.line})'
