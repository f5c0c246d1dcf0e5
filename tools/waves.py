#!/usr/bin/env python3
"""Writes the waves of a run of what `compile` makes of a design, with the design's names, as a VCD file that GTKWave reads.

    tools/waves.py DESIGN DATA [CYCLES] [--words] [--ports CELL,..] > run.vcd
    gtkwave run.vcd

DESIGN and DATA are the files that `interp` takes. The run ends in the cycle in which `done` is 1, or after cycle CYCLES (1,000 if left out) with the line
`more CYCLES` on standard error. Shown are, of each instance of a component:

    control, control_par_LINE_arm_N  where control is, as a text: the line of the design and the statement; idle where the arm has ended or the instance does not run
    position_of_control ..           the same as a number; a comment of the file says what each number is
    go_GROUP                         which groups go, those of islands too
    time_LINE_STATEMENT              the cycle of an island, or of a round of a static repeat in it, counted from 0
    rounds_of_.. sample_of_..        the rounds of each `repeat`, and what a `static if` has seen
    register_CELL                    what each `std_reg` holds
    word_CELL_N                      with --words, the words of each memory of at most 64
    port_CELL_PORT                   with --ports, the ports of the cells that are named; of all where the word is `all`

and `done` of the whole. A cycle is 10 ns, and begins with the rising edge of `clk`. The text is that of `calyx_cli compile`; it is run here (tools/verilog.py),
not by `sim`, and slowly. In GTKWave all stands below `main`, and the instances below it.
"""
import sys

import design as designs
import flattening
import given
import names
import numbering
import program
import verilog

MOST_WORDS = 64


class Wave:
    """A line of waves: its name, its bits (0 of a text), and a call that gives what stands there."""

    def __init__(self, name, width, look):
        self.name, self.width, self.look = name, width, look


def texts_of(part, scope):
    """Where control of a component is, and each arm of its pars, as a text."""
    wires = {(net.kind, id(net.of)): f'cx_w{number}' for number, net in enumerate(numbering.wires(part)) if net.kind == 'at'}
    for number, statement in numbering.regions(part):
        found = numbering.positions(statement)
        net = numbering.registers(part)[number]
        told = [f'{it.line}:{it.told().replace(" ", "_")}' for it in found]
        at = [wires.get(('at', id(it))) for it in found]

        def look(number=number, told=told, at=at):
            position = scope.value(f'cx_r{number}')
            if position >= len(told) or not (at[position] and scope.value(at[position])):
                return 'idle'
            return told[position]
        name = 'control' if net.kind == 'position' else f'control_par_{net.par.line}_arm_{net.arm}'
        yield Wave(name, 0, look)


def nets_of(it, part, body):
    """The nets of a component that are shown, each with what it is called."""
    for name, kind, group in numbering.holes(part, body):
        if kind == 'go':
            yield name, 'go_' + names.word_of(group)
    for number, net in enumerate(numbering.registers(part)):
        yield f'cx_r{number}', names.word_of(net.told())
    for number, cell in enumerate(numbering.all_cells(part)):
        if cell.kind == 'std_reg':
            yield f'cx_c{number}_2', 'register_' + names.word_of(cell.name)
        elif cell.kind == 'cx_timer':
            yield f'cx_c{number}_1', f'time_{cell.of.line}_' + names.word_of(cell.of.told())


def ports_of(it, part, wanted):
    """The ports of cells that are asked for."""
    for number, cell in enumerate(part.cells):
        if wanted == ['all'] or cell.name in wanted:
            for port, name in enumerate(numbering.port_names(it, cell)):
                yield f'cx_c{number}_{port}', f'port_{names.word_of(cell.name)}_{name}'


def words_of(part, scope):
    """The words of the memories of a component that are not too many."""
    for number, cell in enumerate(part.cells):
        inner = scope.inside.get(f'cx_i{number}')
        for array, words in (inner.words if inner else {}).items():
            if len(words) <= MOST_WORDS:
                width = inner.module.arrays[array][0]
                yield from (Wave(f'word_{names.word_of(cell.name)}_{at}', width, lambda words=words, at=at: words[at]) for at in range(len(words)))


class Waves:
    """The waves of a run: of each its mark in the file, and what it was last."""

    def __init__(self, to, run, it, bodies, wants_words, ports):
        self.to, self.run, self.it, self.bodies, self.wants_words, self.ports = to, run, it, bodies, wants_words, ports
        self.parts, self.marks, self.last = dict(numbering.module_names(it)), [], {}

    def mark(self):
        number, text = len(self.marks), ''
        while not text or number:
            text, number = text + chr(33 + number % 94), number // 94
        return text

    def legend(self):
        """What each position is, as comments."""
        for part in self.parts.values():
            for number, statement in numbering.regions(part):
                for position, told in enumerate(names.positions(statement)):
                    net = numbering.registers(part)[number]
                    self.to.write(f'$comment {part.name}, {net.told()}: position {position} = {told} $end\n')

    def of(self, scope):
        """The waves of an instance."""
        part, body = self.parts[scope.module.name], self.bodies[scope.module.name]
        yield from texts_of(part, scope)
        nets = [*nets_of(self.it, part, body), *ports_of(self.it, part, self.ports), *([('done', 'done')] if scope is self.run.main else [])]
        for name, told in nets:
            if name in scope.module.widths:
                yield Wave(told, scope.module.widths[name], lambda name=name: scope.value(name))
        if self.wants_words:
            yield from words_of(part, scope)

    def declare(self, scope, title):
        self.to.write(f'$scope module {title} $end\n')
        if scope is self.run.main:
            self.to.write('$var wire 1 clk clk $end\n')
        for wave in self.of(scope):
            mark = self.mark()
            self.marks.append((mark, wave))
            self.to.write(f'$var {"wire" if wave.width else "string"} {wave.width or 1} {mark} {wave.name} $end\n')
        for number, cell in enumerate(self.parts[scope.module.name].cells):
            inner = scope.inside.get(f'cx_i{number}')
            if inner and inner.module.name in self.parts:
                self.declare(inner, names.word_of(cell.name))
        self.to.write('$upscope $end\n')

    def sample(self):
        for mark, wave in self.marks:
            value = wave.look()
            if self.last.get(mark) != value:
                self.last[mark] = value
                self.to.write(f's{value} {mark}\n' if wave.width == 0 else f'{value}{mark}\n' if wave.width == 1 else f'b{value:b} {mark}\n')


def write(to, path, data_path, cycles, wants_words=False, ports=''):
    """Writes the waves of a run of at most so many cycles."""
    written = given.text_of(path, 'latin-1')
    text, told = program.compiled(written)
    if text is None:
        sys.exit(told)
    data = given.memories(data_path, text)
    words = {name: [word % (1 << width) for word in given.flat(data[name]['data'])] for name, _, width, _ in given.externals(text)}
    run = verilog.Run(text, words)
    waves = Waves(to, run, flattening.flattened(designs.read(written)), numbering.modules_of(text), wants_words, ports.split(',') if ports else [])
    to.write('$timescale 1ns $end\n')
    waves.legend()
    waves.declare(run.main, 'main')
    to.write('$enddefinitions $end\n')
    for cycle in range(cycles + 1):
        to.write(f'#{10 * cycle}\n1clk\n')
        waves.sample()
        to.write(f'#{10 * cycle + 5}\n0clk\n')
        if run.is_done():
            break
        run.step()
    else:
        print(f'more {cycles}', file=sys.stderr)
    to.write(f'#{10 * cycle + 10}\n')


def main():
    words = sys.argv[1:]
    ports = ''
    if '--ports' in words and words.index('--ports') + 1 < len(words):
        at = words.index('--ports')
        ports = words[at + 1]
        del words[at:at + 2]
    rest = [word for word in words if word != '--words']
    if not 2 <= len(rest) <= 3 or any(word.startswith('--') for word in rest):
        sys.exit(__doc__.strip())
    write(sys.stdout, rest[0], rest[1], given.cycles(__doc__, rest[2:], 1000), '--words' in words, ports)


if __name__ == '__main__':
    try:
        main()
    except BrokenPipeError:
        sys.stderr.close()
