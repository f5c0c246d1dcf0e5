#!/usr/bin/env python3
"""Writes a testbench for a text of `compile`: it loads a data file, runs from reset, and prints the dump as `calyx_cli` does.

    tools/testbench.py TEXT DATA [CYCLES] > bench.v
    iverilog -g2005 -s bench -o run.vvp bench.v TEXT && vvp -n run.vvp
    verilator --binary --timing -Wno-fatal --top-module bench bench.v TEXT && obj_dir/Vbench

TEXT is a file that `compile` wrote, DATA the data file that `interp` takes. Where `done` is not 1 in a cycle from 0 to CYCLES (1,000,000 if left out)
the line `more CYCLES` is printed. In the standard registers and words of arrays begin unknown; the edge with reset sets the registers, and the
testbench sets all words, to 0 where no data file gives them.
"""
import re
import sys

import given

BENCH = """`timescale 1ns / 1ns
module bench;
  reg clk, reset, go;
  wire done;
  integer cycle, k;
  main dut(.clk(clk), .reset(reset), .go(go), .done(done));
  initial begin
    clk = 0; reset = 1; go = 0; cycle = 0;
{words}
    #1 clk = 1;
    #1 clk = 0; reset = 0; go = 1;
    #1;
    while (done !== 1'b1 && cycle < {cycles}) begin
      #1 clk = 1;
      #1 clk = 0; cycle = cycle + 1;
      #1;
    end
    if (done === 1'b1) begin
      $write("{{\\"cycles\\":%0d,\\"memories\\":{{", cycle);
{dumps}
      $write("}}}}\\n");
    end else $write("more {cycles}\\n");
    $finish;
  end
endmodule
"""


class Text:
    """The modules of a text, by name: the array of each with its width and its count of words, and its instances."""

    def __init__(self, text):
        self.arrays, self.instances = {}, {}
        for module, body in re.findall(r'^module (\w+)\((.*?)^endmodule', text, flags=re.M | re.S):
            array = re.search(r'^  reg \[(\d+):0\] (\w+) \[0:(\d+)\];', body, flags=re.M)
            if array:
                self.arrays[module] = array.group(2), int(array.group(1)) + 1, int(array.group(3)) + 1
            self.instances[module] = re.findall(r'^  (\w+) (\w+)\(\.clk', body, flags=re.M)
        lines = [line.split(' ') for line in re.findall(r'^// external (.*)$', text, flags=re.M)]
        self.externals = {line[1]: (line[0], [int(size) for size in line[3:]]) for line in lines}

    def words(self, module='main', path='dut'):
        """The array of each instance below one, with its path."""
        for kind, name in self.instances[module]:
            if kind in self.arrays:
                yield f'{path}.{name}', *self.arrays[kind]
            yield from self.words(kind, f'{path}.{name}')


def loads(text, data):
    """Sets the words of all arrays."""
    for path, array, width, count in text.words():
        yield f"    for (k = 0; k < {count}; k = k + 1) {path}.{array}[k] = {width}'d0;"
        name, _ = text.externals.get(path.removeprefix('dut.'), (None, None))
        held = given.flat(data[name]['data']) if name else []
        yield from (f"    {path}.{array}[{k}] = {width}'d{word % 2**width};" for k, word in enumerate(held) if word)


def dump(name, at, sizes, is_signed):
    """Prints the words of a memory, a bracket for each dimension."""
    steps = [1]
    for size in reversed(sizes[1:]):
        steps.append(steps[-1] * size)
    word = f'$signed({at})' if is_signed else at
    yield f'      $write("\\"{name}\\":[");'
    yield f'      for (k = 0; k < {steps[-1] * sizes[0]}; k = k + 1) begin'
    yield '        if (k != 0) $write(",");'
    yield from (f'        if (k % {step} == 0) $write("[");' for step in reversed(steps[1:]))
    yield f'        $write("%0d", {word});'
    yield from (f'        if (k % {step} == {step - 1}) $write("]");' for step in steps[1:])
    yield '      end'
    yield '      $write("]");'


def dumps(text, data):
    """Prints the external memories in the order of their names."""
    named = sorted((name, sizes, path, array) for path, array, _, _ in text.words()
                   for name, sizes in [text.externals.get(path.removeprefix('dut.'), (None, None))] if name)
    for at, (name, sizes, path, array) in enumerate(named):
        if at:
            yield '      $write(",");'
        yield from dump(name, f'{path}.{array}[k]', sizes, data[name]['format']['is_signed'])


def main():
    path, data_path, *more = given.words(__doc__, 2, 3)
    written = given.text_of(path, 'ascii')
    text, cycles = Text(written), given.cycles(__doc__, more, 1000000)
    if 'main' not in text.instances:
        sys.exit(f'{path} has no module main: it is no text of compile')
    data = given.memories(data_path, written)
    print(BENCH.format(cycles=cycles, words='\n'.join(loads(text, data)), dumps='\n'.join(dumps(text, data))), end='')


if __name__ == '__main__':
    main()
