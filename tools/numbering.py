"""How `compile` numbers the parts of a design: what tools/names.py, tools/waves.py and tools/moment.py stand on.

It takes designs that `check` accepts. The numbers are those of `net_of` (crates/cx_wiring) and `source_of` (crates/cx_emit); docs/VERILOG.md has their names
in a text, docs/MACHINE.md tells what positions are.
"""
import re
from typing import NamedTuple

import cells
import design


class Net(NamedTuple):
    """A wire or a register that control has: what it is (`kind`), of which statement or group, and of which arm of which `par`."""

    kind: str
    of: object = None
    arm: int = 0
    par: object = None

    def told(self):
        it = self.of.told() if isinstance(self.of, design.Statement) else self.of
        return {
            'position': 'the position of control', 'arm': f'the position of arm {self.arm} ({it})', 'rounds': f'the rounds of {it}',
            'sample': f'the sample of {it}', 'offset': f'the offset of group {it}', 'runs': f'the timer of {it} runs', 'found': f'what {it} has found',
            'active': f'{it} is active', 'at': f'control is at {it}', 'end': f'{it} is in its last turn',
        }[self.kind]


def islands_of(statement):
    """The islands of control, those in the body of a `repeat 0` too."""
    if statement.static:
        yield statement
    else:
        for it in statement.parts:
            yield from islands_of(it)


class Timers:
    """What an island has of its own: a timer, and one for each static repeat in it; a register for each static if; a wire for each enable."""

    def __init__(self, island):
        inside = list(island.all())
        self.timed = [island, *(it for it in inside if it.kind == 'repeat')]
        self.tests = [it for it in inside if it.kind == 'if']
        self.enables = [it for it in inside if it.kind == 'enable']


def ordered(it):
    """The components of a design in the order of its text: those that main reaches, by height, and at one height by number."""
    def below(part):
        return [it.by_name[cell.kind] for cell in part.cells if cell.kind in it.by_name]

    heights = {}

    def height(part):
        if part.name not in heights:
            heights[part.name] = max((height(inner) + 1 for inner in below(part)), default=0)
        return heights[part.name]

    reached, left = set(), [it.by_name['main']]
    while left:
        part = left.pop()
        if part.name not in reached:
            reached.add(part.name)
            left += below(part)
    return sorted((part for part in it.parts if part.name in reached), key=height)


class Timer(NamedTuple):
    """A cell that stands for an island, or for a static repeat in one."""

    name: str
    kind: str
    of: design.Statement


def all_cells(part):
    """The cells of a component in a text: behind its own the timers of its islands."""
    timers = [it for island in islands_of(part.control) for it in Timers(island).timed]
    return [*part.cells, *(Timer(f'timer of {it.told()}', 'cx_timer', it) for it in timers)]


def port_names(it, cell):
    ports = cells.ports_of('cx_timer', []) if isinstance(cell, Timer) else cells.cell_ports(it, cell)
    return [port.name for port in ports]


def is_idle(statement):
    """A statement of one idle turn: it has a position and nothing in it."""
    return statement.kind == 'empty' or (statement.kind in ('seq', 'par') and not statement.parts) or (statement.kind == 'repeat' and statement.count == 0)


def registers(part):
    """What each register holds, in the order of their numbers."""
    found = [Net('position')]

    def of(statement):
        if statement.static:
            found.extend(Net('sample', it) for it in Timers(statement).tests)
        elif statement.kind == 'par':
            for number, arm in enumerate(statement.parts):
                found.append(Net('arm', arm, number, statement))
                of(arm)
        elif not is_idle(statement):
            if statement.kind == 'repeat':
                found.append(Net('rounds', statement))
            for it in statement.parts:
                of(it)

    of(part.control)
    return found


def positions(statement):
    """The statements that have a position of their own in the region of a statement, in the order of their numbers."""
    if statement.static or statement.kind in ('par', 'enable', 'invoke') or is_idle(statement):
        return [statement]
    own = [statement] if statement.kind in ('if', 'while') else []
    return own + [position for it in statement.parts for position in positions(it)]


def regions(part):
    """The statement whose control each register of a position moves through, in the order of their numbers."""
    return [(number, part.control if net.kind == 'position' else net.of) for number, net in enumerate(registers(part)) if net.kind in ('position', 'arm')]


def wires(part):
    """What each wire says, in the order of their numbers, up to those of assignments."""
    found = [Net('offset', name) for name in part.groups]
    for island in islands_of(part.control):
        own = Timers(island)
        found += [Net('runs', it) for it in own.timed] + [Net('found', it) for it in own.tests] + [Net('active', it) for it in own.enables]

    def of(statement):
        found.extend([Net('at', statement), Net('end', statement)])
        if not statement.static and not (statement.kind == 'repeat' and statement.count == 0):
            for it in statement.parts:
                of(it)

    of(part.control)
    return found


def modules_of(text):
    """The lines of each module of a text, by its name."""
    return {name: body for name, body in re.findall(r'^module (\w+)\((.*?)^endmodule', text, flags=re.M | re.S)}


def module_names(it):
    """The components that main reaches, in the order of a text, each with the name of its module."""
    return [('main' if part.name == 'main' else f'cx_m{number}', part) for number, part in enumerate(ordered(it))]


def declared(body, letter):
    """How many nets of a kind a module declares."""
    return len(set(re.findall(rf'^  (?:wire|reg) (?:\[[^]]*\] )?cx_{letter}(\d+);', body, flags=re.M)))


def holes(part, body):
    """The wires of holes stand behind all others: of each group that it is done, and then of each that it goes. Told are the net, done or go, and the group."""
    first, groups = declared(body, 'w') - 2 * len(part.groups), list(part.groups)
    for at, name in enumerate(groups):
        yield f'cx_w{first + at}', 'done', name
    for at, name in enumerate(groups):
        yield f'cx_w{first + len(groups) + at}', 'go', name
