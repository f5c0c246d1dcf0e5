"""What a port is seen as in one cycle, and why it is seen as nothing or as two things: docs/MEANING.md, 'What a port is seen as', over a run of the text.

A look is at one instance in one cycle of a run of the text that `compile` makes (tools/verilog.py): registered outputs are those of the text, and all else is
computed from the design, with the groups that are active. So it tells of Conflict and Undefined, which the text does not know.
"""
import dataclasses

import cells


@dataclasses.dataclass
class Fault:
    """Why a port has no value: `kind` is conflict, undefined or range; `at` the port, of the instance of `look`; `way` leads from the port that was asked for to it.

    `drivers` are its active assignments, `on` those whose guard is 1, `idle` those of groups that are not active.
    """

    kind: str
    at: str
    way: list
    look: object
    drivers: list = dataclasses.field(default_factory=list)
    on: list = dataclasses.field(default_factory=list)
    idle: list = dataclasses.field(default_factory=list)
    note: str = ''


class Look:
    """An instance in a cycle: its component, its scope in the run, the names of its groups that are active, and the look at the instance around it."""

    def __init__(self, design, part, scope, active, path='', outer=None):
        self.design, self.part, self.scope, self.active, self.path, self.outer = design, part, scope, active, path, outer
        self.kept = {}

    def named(self, text):
        """A port with the way to this instance before it."""
        return f'{self.path}.{text}' if self.path else text

    def net(self, name, port):
        """What stands at a port of a cell in the text, and at an output of a component."""
        number = next(at for at, cell in enumerate(self.part.cells) if cell.name == name)
        ports = [it.name for it in cells.cell_ports(self.design, self.part.cells[number])]
        return self.scope.value(f'cx_c{number}_{ports.index(port)}')

    def drivers(self, text):
        """The active assignments of a port, in source order, and those of groups that are not active."""
        active, idle = [], []
        for group, assign in self.part.all_assigns():
            if assign.target.text == text:
                (active if group is None or group.name in self.active else idle).append((group, assign))
        return sorted(active, key=lambda it: it[1].target.first.place), idle

    def operand(self, operand):
        """A value, or a Fault."""
        if operand.literal:
            return operand.width_and_value()[1]
        text = operand.text
        if text not in self.kept:
            self.kept[text] = Fault('circle', text, [self.named(text)], self)
            self.kept[text] = self.found(operand)
        return self.kept[text]

    def found(self, operand):
        if operand.group:
            return self.target(operand, is_enabling=True)
        port = cells.port_of(self.design, self.part, operand)
        if not operand.cell and port.side == 'out':
            return self.from_outside(operand)
        if port.is_input:
            return self.target(operand, port.side == 'enable')
        cell = self.part.cell(operand.cell)
        if port.side == 'registered':
            return self.net(operand.cell, operand.port)
        return self.from_inside(operand, cell) if cell.kind in self.design.by_name else self.computed(operand, cell)

    def from_inside(self, operand, cell):
        """An output of a component cell: what the continuous assignments of the component give."""
        number = self.part.cells.index(cell)
        inner = Look(self.design, self.design.by_name[cell.kind], self.scope.inside[f'cx_i{number}'], set(), self.named(cell.name), self)
        value = inner.target(dataclasses.replace(operand, cell=''), is_enabling=False)
        return self.behind(operand, value) if isinstance(value, Fault) else value

    def from_outside(self, operand):
        """An input of the signature: what the instance around drives it with."""
        if operand.port not in self.part.inputs or self.outer is None:
            return self.scope.value('go')
        cell = self.path.rpartition('.')[2]
        value = self.outer.target(dataclasses.replace(operand, cell=cell), is_enabling=False)
        return self.behind(operand, value) if isinstance(value, Fault) else value

    def behind(self, operand, fault):
        """The fault of a port that waits for another."""
        return dataclasses.replace(fault, way=[self.named(operand.text), *fault.way])

    def target(self, operand, is_enabling):
        active, idle = self.drivers(operand.text)
        on, values = [], []
        for group, assign in active:
            holds = self.guard(assign.guard, group)
            if isinstance(holds, Fault):
                return self.behind(operand, holds)
            if holds:
                on.append((group, assign))
        if not on:
            return 0 if is_enabling else Fault('undefined', operand.text, [self.named(operand.text)], self, active, [], idle)
        for group, assign in on:
            value = self.operand(assign.source)
            if isinstance(value, Fault):
                return self.behind(operand, value)
            values.append(value)
        if len(set(values)) > 1:
            note = ', '.join(f'{value} of line {assign.line}' for value, (_, assign) in zip(values, on))
            return Fault('conflict', operand.text, [self.named(operand.text)], self, active, on, idle, note)
        return values[0]

    def computed(self, operand, cell):
        """An output that is computed in the same cycle."""
        given = []
        for name in cells.inputs_of_output(cell.kind, operand.port):
            inner = dataclasses.replace(operand, port=name)
            given.append(self.operand(inner))
            if isinstance(given[-1], Fault):
                return self.behind(operand, given[-1])
        if not cells.sizes_of(cell.kind):
            return cells.value_of(cell.kind, cell.numbers, given)
        far = out_of_range(cell, given)
        return Fault('undefined', operand.text, [self.named(operand.text)], self, note=far) if far else self.net(operand.cell, operand.port)

    def offset(self, group):
        """How many cycles ago a static group began."""
        return self.scope.value(f'cx_w{list(self.part.groups).index(group.name)}')

    def guard(self, guard, group=None):
        """1 or 0, or a Fault."""
        if guard is None:
            return 1
        if guard.kind == 'time':
            return int(guard.cycles[0] <= self.offset(group) < guard.cycles[1])
        if guard.kind in ('and', 'or'):
            sides = [self.guard(part, group) for part in guard.parts]
            deciding = 0 if guard.kind == 'and' else 1
            if deciding in [it for it in sides if not isinstance(it, Fault)]:
                return deciding
            return next((it for it in sides if isinstance(it, Fault)), 1 - deciding)
        if guard.kind == 'not':
            inner = self.guard(guard.parts[0], group)
            return inner if isinstance(inner, Fault) else 1 - inner
        sides = [self.operand(it) for it in guard.operands]
        wrong = next((it for it in sides if isinstance(it, Fault)), None)
        if wrong:
            return wrong
        return sides[0] if guard.kind == 'port' else int(COMPARED[guard.kind](*sides))


COMPARED = {'==': lambda a, b: a == b, '!=': lambda a, b: a != b, '<': lambda a, b: a < b, '>': lambda a, b: a > b, '<=': lambda a, b: a <= b, '>=': lambda a, b: a >= b}


def out_of_range(cell, given):
    """In words, which address is beyond which size; nothing where none is."""
    sizes = cell.numbers[1:1 + cells.sizes_of(cell.kind)]
    for at, (address, size) in enumerate(zip(given, sizes)):
        if address >= size:
            return f'{cell.name}.addr{at} is {address}, and `{cell.name}` has {size} word{"s" if size > 1 else ""} there, 0 to {size - 1} (line {cell.line}: {cell.told()})'
    return ''
