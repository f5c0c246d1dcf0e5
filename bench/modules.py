#!/usr/bin/env python3
"""Runs the module of each primitive under Icarus Verilog on random inputs, and compares its outputs with the primitive's row.

    bench/modules.py PROGRAM [SEED]

PROGRAM is the built calyx_cli: the module is the one that `compile` writes of a design with this cell alone, that of the timer of a design
with a static group of so many cycles. Skipped where `iverilog` and `vvp` are not installed (Debian's package iverilog). The rows are written here anew, from their sentences. Inputs
are random with their extremes more often; enabling ports fall and the reset rises now and then; addresses go out of range, where a read is 0
and no word is written. Words begin with 0, which Icarus Verilog is told.
"""
import os
import random
import shutil
import subprocess
import sys
import tempfile

WIDTHS = (1, 2, 31, 32, 33, 64, 65, 127, 128)
BINARY = ('add', 'sub', 'and', 'or', 'xor', 'lsh', 'rsh', 'lt', 'gt', 'eq', 'neq', 'le', 'ge', 'slt', 'sgt', 'seq', 'sneq', 'sle', 'sge')
SHAPES = {
    1: (([4], [2]), ([5], [3]), ([1], [1]), ([7], [64]), ([9], [2]), ([70000], [33]), ([33], [6]), ([64], [32])),
    2: (([1, 4], [1, 2]), ([4, 1], [2, 1]), ([3, 5], [2, 3]), ([2, 2], [1, 64]), ([300, 200], [9, 8]), ([6, 3], [1, 4])),
    3: (([1, 1, 1], [1, 1, 1]), ([2, 3, 4], [1, 2, 2]), ([3, 1, 8], [2, 7, 3]), ([2, 2, 2], [33, 40, 64])),
    4: (([2, 2, 2, 2], [1, 1, 1, 1]), ([3, 2, 5, 1], [2, 4, 3, 1]), ([1, 2, 1, 16], [3, 1, 64, 4])),
}
TIMERS = (1, 2, 3, 5, 16, 31)


def cases():
    """The primitives: each name at each width, memories of the shapes above at three widths."""
    for width in WIDTHS:
        for value in {0, 1, (1 << min(width, 64)) - 1}:
            yield 'std_const', [width, value]
        for name in BINARY:
            yield 'std_' + name, [width]
        for name in ('std_wire', 'std_not', 'std_mux', 'std_reg', 'std_mult_pipe', 'std_div_pipe'):
            yield name, [width]
        for other in WIDTHS:
            yield ('std_slice' if other <= width else 'std_pad'), [width, other]
        yield 'std_pad', [width, width]
    for dimensions, shapes in SHAPES.items():
        for sizes, widths in shapes:
            for width in (1, 32, 128):
                yield f'comb_mem_d{dimensions}', [width] + sizes + widths
                yield f'seq_mem_d{dimensions}', [width] + sizes + widths
        yield f'std_mem_d{dimensions}', [33] + sizes + widths
    for length in TIMERS:
        yield 'cx_timer', [length]


def signed(value, width):
    return value - (1 << width) if value >> (width - 1) else value


def binary(name, width, a, b):
    top = (1 << width) - 1
    sa, sb = signed(a, width), signed(b, width)
    return {
        'add': (a + b) & top, 'sub': (a - b) & top, 'and': a & b, 'or': a | b, 'xor': a ^ b,
        'lsh': (a << b) & top if b < width else 0, 'rsh': a >> b if b < width else 0,
        'lt': a < b, 'gt': a > b, 'eq': a == b, 'neq': a != b, 'le': a <= b, 'ge': a >= b,
        'slt': sa < sb, 'sgt': sa > sb, 'seq': a == b, 'sneq': a != b, 'sle': sa <= sb, 'sge': sa >= sb,
    }[name]


class Row:
    """A primitive: its inputs and outputs with their widths in port order, its outputs in a state, and its edge."""

    def __init__(self, name, numbers):
        self.name, self.numbers = name, numbers
        self.width = numbers[0]
        self.kind = name.split('_d')[0] if 'mem' in name else name
        w = self.width
        if name in ('std_mult_pipe', 'std_div_pipe'):
            results = ['out'] if name == 'std_mult_pipe' else ['out_quotient', 'out_remainder']
            self.inputs = [('go', 1), ('left', w), ('right', w)]
            self.outputs = [(r, w) for r in results] + [('done', 1)]
            self.latency = 3 if name == 'std_mult_pipe' else w
            self.results = [0] * len(results)
        elif name == 'cx_timer':
            self.inputs, self.outputs = [('go', 1)], [('out', 32), ('done', 1)]
        elif name == 'std_reg':
            self.inputs, self.outputs = [('in', w), ('write_en', 1)], [('out', w), ('done', 1)]
        elif 'mem' in name:
            dimensions = int(name[-1])
            self.sizes, widths = numbers[1:1 + dimensions], numbers[1 + dimensions:]
            ports = [(f'addr{k}', a) for k, a in enumerate(widths)]
            self.inputs = ports + ([('content_en', 1), ('write_en', 1), ('write_data', w)] if self.kind == 'seq_mem' else [('write_data', w), ('write_en', 1)])
            self.outputs = [('read_data', w), ('done', 1)]
            self.words = {}
        elif name == 'std_const':
            self.inputs, self.outputs = [], [('out', w)]
        elif name == 'std_mux':
            self.inputs, self.outputs = [('cond', 1), ('tru', w), ('fal', w)], [('out', w)]
        elif name in ('std_wire', 'std_not'):
            self.inputs, self.outputs = [('in', w)], [('out', w)]
        elif name in ('std_slice', 'std_pad'):
            self.inputs, self.outputs = [('in', w)], [('out', numbers[1])]
        else:
            one = name[4:] not in ('add', 'sub', 'and', 'or', 'xor', 'lsh', 'rsh')
            self.inputs, self.outputs = [('left', w), ('right', w)], [('out', 1 if one else w)]
        self.rest()

    def rest(self):
        """The start; a memory keeps its words."""
        self.value = self.count = self.done = self.left = self.right = 0
        if hasattr(self, 'results'):
            self.results = [0] * len(self.results)

    def count_words(self):
        """The number of words of a memory, and 0 for another primitive."""
        count = int('mem' in self.name)
        for size in self.sizes if count else []:
            count *= size
        return count

    def place(self, at):
        """The number of the word at the addresses, or None where one is out of range."""
        number = 0
        for k, size in enumerate(self.sizes):
            if at[f'addr{k}'] >= size:
                return None
            number = number * size + at[f'addr{k}']
        return number

    def word(self, at):
        place = self.place(at)
        return 0 if place is None else self.words.get(place, 0)

    def given(self, at):
        w, top = self.width, (1 << self.width) - 1
        if hasattr(self, 'results'):
            return self.results + [self.done]
        if self.name == 'cx_timer':
            return [self.count, self.done]
        if self.name == 'std_reg' or self.kind == 'seq_mem':
            return [self.value, self.done]
        if 'mem' in self.name:
            return [self.word(at), self.done]
        if self.name == 'std_const':
            return [self.numbers[1]]
        if self.name == 'std_mux':
            return [at['tru'] if at['cond'] else at['fal']]
        if self.name == 'std_not':
            return [top - at['in']]
        if self.name in ('std_wire', 'std_pad'):
            return [at['in']]
        if self.name == 'std_slice':
            return [at['in'] & ((1 << self.numbers[1]) - 1)]
        return [int(binary(self.name[4:], w, at['left'], at['right']))]

    def edge(self, at):
        if hasattr(self, 'results'):
            self.pipe(at)
        elif self.name == 'cx_timer':
            last = self.count + 1 == self.width
            self.done = int(at['go'] and last)
            self.count = self.count + 1 if at['go'] and not last else 0
        elif self.name == 'std_reg':
            self.done = at['write_en']
            self.value = at['in'] if at['write_en'] else self.value
        elif self.kind == 'seq_mem':
            self.done = at['content_en']
            if at['content_en'] and at['write_en']:
                self.write(at)
            elif at['content_en']:
                self.value = self.word(at)
        elif 'mem' in self.name:
            self.done = at['write_en']
            if at['write_en']:
                self.write(at)

    def write(self, at):
        place = self.place(at)
        if place is not None:
            self.words[place] = at['write_data']

    def pipe(self, at):
        if not at['go']:
            self.count = self.done = 0
            return
        if self.count == 0:
            self.left, self.right = at['left'], at['right']
        last = self.count + 1 == self.latency
        if last:
            top = (1 << self.width) - 1
            quotient = divmod(self.left, self.right) if self.right else (top, self.left)
            self.results = [self.left * self.right & top] if self.name == 'std_mult_pipe' else list(quotient)
        self.count = 0 if last else self.count + 1
        self.done = int(last)


def some_value(rng, width):
    """A value of the width: extremes, small ones, and any."""
    top = (1 << width) - 1
    kind = rng.randrange(8)
    if kind == 0:
        return rng.choice((0, 1 & top, top, top >> 1, 1 << (width - 1)))
    if kind == 1:
        return rng.randrange(200) & top
    return rng.getrandbits(width) >> (rng.randrange(width) if kind == 2 else 0)


def inputs_of(row, rng, cycles):
    """For each cycle the reset and what stands at the inputs."""
    before = None
    for cycle in range(cycles):
        reset = int(cycle == 0 or rng.randrange(60) == 0)
        at = {}
        for name, width in row.inputs:
            if name in ('go', 'write_en', 'content_en'):
                at[name] = int(rng.randrange(40) != 0) if name == 'go' else rng.randrange(2)
            elif name.startswith('addr'):
                size = row.sizes[int(name[4:])]
                near = rng.choice((0, size - 1, size, size + 1, rng.randrange(size), rng.randrange(size), rng.randrange(size), some_value(rng, width)))
                near = near + (1 << 32) if width > 32 and rng.randrange(12) == 0 else near
                at[name] = before[name] if before and rng.randrange(2) else near & ((1 << width) - 1)
            else:
                at[name] = at['left'] if name == 'right' and rng.randrange(4) == 0 else some_value(rng, width)
        before = at
        yield reset, at


def port(name):
    """The name of a port in a module: another than these four stands behind `cx_`."""
    return name if name in ('clk', 'reset', 'go', 'done') else 'cx_' + name


def bench_of(number, row, cycles):
    """A bench that reads the inputs of each cycle out of a file and prints the outputs before each edge."""
    ports = [('clk', 1), ('reset', 1)] + row.inputs + row.outputs
    whole = 1 + sum(width for _, width in row.inputs)
    lines = ['module bench;', '  reg clk = 0;', f'  reg [{whole - 1}:0] held [0:{cycles - 1}];', f'  reg [{whole - 1}:0] at;', '  integer k;', '  wire reset = at[0];']
    low = 1
    for name, width in row.inputs:
        lines.append(f'  wire [{width - 1}:0] {name} = at[{low + width - 1}:{low}];')
        low += width
    lines += [f'  wire [{width - 1}:0] {name};' for name, width in row.outputs]
    lines.append(f'  m{number} dut(' + ', '.join(f'.{port(name)}({name})' for name, _ in ports) + ');')
    lines += ['  initial begin', '    $readmemh("inputs", held);']
    if row.count_words():
        lines.append(f'    for (k = 0; k < {row.count_words()}; k = k + 1) dut.cx_words[k] = 0;')
    shown = ' '.join('%h' for _ in row.outputs)
    names = ', '.join(name for name, _ in row.outputs)
    lines += [f'    for (k = 0; k < {cycles}; k = k + 1) begin', '      at = held[k]; #1;', f'      $display("{shown}", {names});', '      clk = 1; #1; clk = 0; #1;', '    end']
    if row.count_words():
        lines.append(f'    for (k = 0; k < {row.count_words()}; k = k + 1) $display("%h", dut.cx_words[k]);')
    lines += ['  end', 'endmodule']
    return '\n'.join(lines) + '\n'


def packed(row, reset, at):
    whole, low = reset, 1
    for name, width in row.inputs:
        whole |= at[name] << low
        low += width
    return whole


def compare(folder, number, text, name, numbers, rng):
    """Runs one module, and tells the first cycle in which it differs from the row, or the first word after the last one."""
    row = Row(name, numbers)
    cycles = 40 + (12 * numbers[0] if name == 'std_div_pipe' else 300)
    registered = name in ('std_reg', 'cx_timer') or hasattr(row, 'results') or 'mem' in name
    given = list(inputs_of(row, rng, cycles))
    with open(folder + '/inputs', 'w', encoding='ascii') as file:
        file.write(''.join(f'{packed(row, *each):x}\n' for each in given))
    with open(folder + '/b.v', 'w', encoding='ascii') as file:
        file.write(text + bench_of(number, row, cycles))
    told = subprocess.run(['iverilog', '-g2005', '-Wall', '-s', 'bench', '-o', 'b.vvp', 'b.v'], cwd=folder, check=True, capture_output=True, text=True)
    warned = [line for line in told.stderr.splitlines() if 'timescale' not in line]
    assert not warned, (name, numbers, warned)
    ran = subprocess.run(['vvp', '-n', 'b.vvp'], cwd=folder, check=True, capture_output=True, text=True)
    lines = [line for line in ran.stdout.splitlines() if 'readmem' not in line]
    assert len(lines) == cycles + row.count_words(), (name, numbers, ran.stdout[:200])
    for cycle, ((reset, at), line) in enumerate(zip(given, lines)):
        want = row.given(at)
        if cycle > 0 or not registered:
            assert [int(word, 16) for word in line.split()] == want, (name, numbers, cycle, at, line, want)
        if reset:
            row.rest()
        else:
            row.edge(at)
    for place, line in enumerate(lines[cycles:]):
        assert int(line, 16) == row.words.get(place, 0), (name, numbers, place, line)
    return cycles


def design_of(name, numbers):
    """A design whose first module is that of the primitive."""
    if name == 'cx_timer':
        return f'component main() -> () {{ cells {{ }} wires {{ static<{numbers[0]}> group g {{ }} }} control {{ g; }} }}\n'
    return f'component main() -> () {{ cells {{ c = {name}({", ".join(map(str, numbers))}); }} wires {{ }} control {{ }} }}\n'


def module_of(program, folder, number, name, numbers):
    """The module of a primitive, as `compile` writes it, under the name of its number."""
    with open(folder + '/d.futil', 'w', encoding='ascii') as file:
        file.write(design_of(name, numbers))
    ran = subprocess.run([program, 'compile', 'd.futil'], cwd=folder, capture_output=True, text=True, check=False)
    assert ran.returncode == 0, (name, numbers, ran.stderr)
    first = ran.stdout[ran.stdout.index('module '):]
    own = first.split('(')[0].split()[1]
    assert own == '_'.join(['cx', name, *map(str, numbers)]), (name, numbers, own)
    return first[:first.index('endmodule\n') + len('endmodule\n')].replace(f'module {own}(', f'module m{number}(', 1)


def main():
    if not shutil.which('iverilog') or not shutil.which('vvp'):
        print('skipped: iverilog is not installed')
        return
    if len(sys.argv) < 2:
        sys.exit(__doc__.strip())
    program = os.path.abspath(sys.argv[1])
    seed = int(sys.argv[2]) if len(sys.argv) > 2 else 1
    cycles = largest = 0
    all_cases = list(cases())
    with tempfile.TemporaryDirectory() as folder:
        for number, (name, numbers) in enumerate(all_cases):
            text = module_of(program, folder, number, name, numbers)
            cycles += compare(folder, number, text, name, numbers, random.Random(seed * 100003 + number))
            largest = max(largest, len(text))
    print(f'{len(all_cases)} modules, {cycles} cycles, no difference; the longest module has {largest} bytes')


if __name__ == '__main__':
    os.environ.setdefault('LC_ALL', 'C')
    main()
