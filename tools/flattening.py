"""The design without static components that is run and compiled in place of one with them (docs/STATIC.md): what names, waves and pictures are told of.

Its groups have names of their own here, for people alone: `c.p` is the copy of group p for the first invoke of cell c, `c 2.p` that for the second.
"""
import copy
import dataclasses
from typing import NamedTuple

import design as designs
from design import Assign, Cell, Component, Group, Guard, Operand, Statement


def is_static(it, cell):
    return cell is not None and cell.kind in it.by_name and it.by_name[cell.kind].static is not None


def mapped_guard(guard, move):
    if guard is None:
        return None
    return Guard(guard.kind, [mapped_guard(part, move) for part in guard.parts], [move(operand) for operand in guard.operands], guard.cycles)


def mapped(assign, move):
    return Assign(move(assign.target), mapped_guard(assign.guard, move), move(assign.source), assign.last)


def wire(operand, cell, output, port):
    return Operand(operand.first, operand.last, cell=f'{cell}.{output}.', port=port)


class Copied(NamedTuple):
    """What a group is a copy of: the group of that name of the static cell at that path, for the invokes that lead to it, the outermost first."""

    cell: str
    name: str
    invokes: tuple


class Flat:
    """The flat component of one, from those of its static cells."""

    def __init__(self, it, part, flat_of):
        self.it, self.part = it, part
        self.kids = {cell.name: flat_of(it.by_name[cell.kind]) for cell in part.cells if is_static(it, cell)}
        self.made = dataclasses.replace(
            part, static=None, cells=self.cells(), groups=dict(self.groups()), control=self.statement(part.control),
            assigns=[mapped(assign, self.own) for assign in part.assigns] + [assign for name in self.kids for assign in self.always(name)])

    def cells(self):
        found = [cell for cell in self.part.cells if cell.name not in self.kids]
        for cell in self.part.cells:
            kid = self.kids.get(cell.name)
            if kid:
                found += [dataclasses.replace(inner, name=f'{cell.name}.{inner.name}', token=cell.token) for inner in kid.cells]
                found += [Cell(f'{cell.name}.{port.name}.', 'std_wire', [port.width], [], cell.token, cell.first, cell.last) for port in Component.data_ports(kid.out_ports)]
        return found

    def own(self, operand):
        """A port of the caller: an output of a static cell is that of its wire."""
        return wire(operand, operand.cell, operand.port, 'out') if operand.cell in self.kids else operand

    def inner(self, name, sources):
        """What a port of the component at a cell becomes: an input is its source."""
        kid = self.kids[name]

        def move(operand):
            if operand.literal or operand.group:
                return operand
            if operand.cell:
                return dataclasses.replace(operand, cell=f'{name}.{operand.cell}')
            return wire(operand, name, operand.port, 'in') if operand.port in kid.outputs else self.own(sources.get(operand.port, operand))
        return move

    def always(self, name):
        return [mapped(assign, self.inner(name, {})) for assign in self.kids[name].assigns]

    def invokes(self):
        """The invokes of static cells, in the order of the text."""
        return [it for it in self.part.control.all() if it.kind == 'invoke' and it.name in self.kids]

    def groups(self):
        for name, group in self.part.groups.items():
            yield name, dataclasses.replace(group, assigns=[mapped(assign, self.own) for assign in group.assigns])
        for it in self.invokes():
            kid, move = self.kids[it.name], self.inner(it.name, {token.text: source for token, source in it.inputs})
            enabled = {inner.name for inner in kid.control.all() if inner.kind == 'enable'}
            for name, group in kid.groups.items():
                if name in enabled:
                    copied, inner = f'{it.called}.{name}', group.copied
                    source = Copied(f'{it.name}.{inner.cell}', inner.name, (it, *inner.invokes)) if inner else Copied(it.name, name, (it,))
                    yield copied, dataclasses.replace(group, name=copied, copied=source, assigns=[mapped(assign, move) for assign in group.assigns])

    def statement(self, it):
        if it.kind == 'invoke' and it.name in self.kids:
            return self.inlined(it)
        made = copy.copy(it)
        made.parts = [self.statement(part) for part in it.parts]
        made.test = self.own(it.test) if it.test else None
        return made

    def inlined(self, it):
        """A copy of the control of the component, and the group that captures behind it."""
        kid, move = self.kids[it.name], self.inner(it.name, {token.text: source for token, source in it.inputs})

        def copied(inner):
            made = copy.copy(inner)
            made.parts = [copied(part) for part in inner.parts]
            made.test = move(inner.test) if inner.test else None
            made.name = f'{it.called}.{inner.name}' if inner.kind == 'enable' else inner.name
            return made
        made = copied(kid.control)
        if not it.outputs:
            return made
        capture = Statement('enable', it.token, name=designs.call_name(it), static=True, last=it.last)
        return Statement('seq', it.token, static=True, parts=[made, capture], last=it.last)


def flattened(it):
    """The design that is run: itself where no component is static."""
    if all(part.static is None for part in it.parts):
        return it
    flats = {}

    def flat_of(part):
        if part.name not in flats:
            flats[part.name] = Flat(it, part, flat_of).made
        return flats[part.name]
    made = copy.copy(it)
    made.parts = [flat_of(part) for part in it.parts if part.static is None]
    made.by_name = {part.name: part for part in reversed(made.parts)}
    return made
