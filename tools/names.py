#!/usr/bin/env python3
"""Tells what each name in a text of `compile` is in the design that it was made from.

    tools/names.py DESIGN TEXT [MODULE]
    tools/names.py DESIGN TEXT --vcd WAVES > NAMED.vcd

DESIGN is the design, TEXT what `calyx_cli compile` wrote of it. A line for each name: the module, the name, and what it is; of one component alone where MODULE, its name in
the design or in the text, is given. Of a register that holds a position there is a line for each position: where control is then. Of wires behind those of control, which are
the parts of guards and the rests of long choices, no line is told.

With --vcd the waves of your own testbench (a VCD file in which `main` has any name) are written with the names of the design in place of those of the text.
"""
import re
import sys

import design as designs
import flattening
import given
import numbering


def positions(statement):
    """What each position of a region is, with its line."""
    found = numbering.positions(statement)
    return [f'line {it.line}: {it.told()}' for it in found] + ['the end']


def module_of(body, at):
    """The module of cell `at` of a component."""
    return re.search(rf'(\w+) cx_i{at}\(', body).group(1)


def names(it, part, body):
    """The names of the module of a component, and what each is; of a register with positions what each of them is."""
    for kind, listed in (('in', part.inputs), ('out', part.outputs)):
        for at, port in enumerate(listed):
            yield f'cx_{kind}{at}', f'port {port}', []
    for at, cell in enumerate(numbering.all_cells(part)):
        is_component, is_output = cell.kind in it.by_name, cell.name.endswith('.')
        told = f'output {cell.name[:-1]}' if is_output else f'cell {cell.name}'
        yield f'cx_i{at}', told + (f', component {cell.kind}' if is_component else f', {cell.kind} in module {module_of(body, at)}'), []
        for port, name in enumerate(numbering.port_names(it, cell)):
            yield f'cx_c{at}_{port}', cell.name[:-1] if is_output and name == 'out' else f'{cell.name}.{name}', []
    regions = dict(numbering.regions(part))
    for at, net in enumerate(numbering.registers(part)):
        yield f'cx_r{at}', net.told(), positions(regions[at]) if at in regions else []
    for at, net in enumerate(numbering.wires(part)):
        yield f'cx_w{at}', net.told(), []
    for name, kind, group in numbering.holes(part, body):
        yield name, f'{group}[done]' if kind == 'done' else f'group {group} goes', []


def read(path):
    """The design of a file."""
    try:
        it = flattening.flattened(designs.read(given.text_of(path, 'latin-1')))
        numbering.ordered(it)
        return it
    except (designs.Unexpected, KeyError):
        sys.exit(f'{path} is no design that check accepts')


def parts_of(it, modules, design, text):
    """The components of a text with their modules, where it is of the design."""
    for module, part in numbering.module_names(it):
        if module not in modules:
            sys.exit(f'{text} has no module {module}: it is not of {design}')
        there = set(re.findall(r'\w+', modules[module]))
        if any(f'cx_i{at}' not in there for at, _ in enumerate(numbering.all_cells(part))):
            sys.exit(f'{text} lacks a cell of {part.name} in module {module}: it is not of {design}')
        yield module, part, there


def tell(design, text, wanted):
    it, modules, known = read(design), numbering.modules_of(given.text_of(text, 'ascii')), False
    for module, part, there in parts_of(it, modules, design, text):
        if wanted not in (None, module, part.name):
            continue
        known = True
        print(f'{module}: component {part.name}')
        for name, told, positions_of in names(it, part, modules[module]):
            if name in there:
                print(f'{module} {name}: {told}')
                for position, where in enumerate(positions_of):
                    print(f'{module} {name} = {position}: {where}')
    if not known:
        sys.exit(f'{design} has no component {wanted} that main reaches')


class Renamed:
    """The lines of a VCD file with the names of the design."""

    def __init__(self, it, modules):
        self.by_module = {}
        for module, part in numbering.module_names(it):
            told = {name: word_of(re.sub(r'^group (.*) goes$', r'go \1', what)) for name, what, _ in names(it, part, modules[module])}
            inner = {f'cx_i{at}': cell for at, cell in enumerate(part.cells)}
            self.by_module[module] = told, inner
        self.modules_of_parts = {part.name: module for module, part in numbering.module_names(it)}
        self.scopes = []

    def lines(self, text):
        """A scope is main where it has the ports of main and no scope of main around it; below it cells lead to modules."""
        lines = text.split('\n')
        mains = main_scopes(lines)
        for at, line in enumerate(lines):
            words = line.split()
            if words[:1] == ['$scope'] and len(words) > 2:
                yield self.scope(words, at in mains)
            elif words[:1] == ['$upscope']:
                self.scopes.pop()
                yield line
            elif words[:1] == ['$var'] and len(words) > 4 and self.scopes and self.scopes[-1]:
                words[4] = self.name(words[4])
                yield ' '.join(words)
            else:
                yield line

    def scope(self, words, is_main):
        around, name = self.scopes[-1] if self.scopes else None, words[2]
        module, told = 'main' if is_main else None, name
        if around and around != 'primitive':
            cell = self.by_module[around][1].get(name)
            module = self.modules_of_parts.get(cell.kind, 'primitive') if cell else 'primitive'
            told = word_of(cell.name) if cell else name
        self.scopes.append(module)
        return f'$scope {words[1]} {told} $end'

    def name(self, name):
        module = self.scopes[-1]
        if module == 'primitive':
            return name.removeprefix('cx_')
        return self.by_module[module][0].get(name, name)


def main_scopes(lines):
    """The lines that begin a scope which declares register or wire names of `compile`, the outermost of them."""
    opened, found = [], set()
    for at, line in enumerate(lines):
        words = line.split()
        if words[:1] == ['$scope']:
            opened.append(at)
        elif words[:1] == ['$upscope']:
            opened.pop()
        elif words[:1] == ['$var'] and len(words) > 4 and re.fullmatch(r'cx_[rwc]\d+(_\d+)?', words[4]) and not any(it in found for it in opened):
            found.add(opened[-1])
    return found


def word_of(told):
    """A name of a wave, without what GTKWave takes as the end of one or writes a `\\` before."""
    return re.sub(r'[^A-Za-z0-9_]+', '_', told.replace('the ', '')).strip('_')


def rename(design, text, waves):
    it, modules = read(design), numbering.modules_of(given.text_of(text, 'ascii'))
    list(parts_of(it, modules, design, text))
    renamed = Renamed(it, modules)
    for line in renamed.lines(given.text_of(waves).rstrip('\n')):
        print(line)


def main():
    words = given.words(__doc__, 2, 4)
    if '--vcd' in words:
        at = words.index('--vcd')
        rest = words[:at] + words[at + 2:]
        if len(rest) != 2 or at + 1 == len(words):
            sys.exit(__doc__.strip())
        rename(*rest, words[at + 1])
    elif len(words) < 4:
        tell(*words[:2], words[2] if len(words) > 2 else None)
    else:
        sys.exit(__doc__.strip())


if __name__ == '__main__':
    try:
        main()
    except BrokenPipeError:
        sys.stderr.close()
