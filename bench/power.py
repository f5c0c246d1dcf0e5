#!/usr/bin/env python3
"""Runs the texts of `compile` by Icarus Verilog from random power-up states, and again after a reset in the middle of a run.

    bench/power.py PROGRAM [--most N] [--seed N] [CASES..]

PROGRAM is the built calyx_cli. The designs are those that `bench/tools.py` takes, N at most (300 if left out). Skipped where `iverilog` or `vvp` is not
installed. The words of the external memories are loaded, and those of all other arrays are 0. Each text is run twice: with registers that begin
unknown, and with a random number in each. The edge with reset comes in one to three cycles, with a `go` of any value; for up to nine cycles `go` is 0, in
which `done` has to be 0 and the words have to stay; then `go` is 1, and `done` has to come in the cycle of `interp` and with its words. Then `go` is random for some
cycles, the words of all other arrays are set to 0, and reset comes again: from there the text has to do what `interp` tells of a data file of
the words that the external memories then have, and where that has a fault in a turn, `done` has to be 0 up to the cycle of this number. The last line
is 'N passed, M failed'; the status is 1 where one failed, or none was run.
"""
import argparse
import concurrent.futures
import itertools
import json
import os
import random
import re
import shutil
import subprocess
import tempfile

from tools import cases, examples, flat, ran

BUDGET = 5000
BENCH = """
module bench;
  reg clk, reset, go;
  wire done;
  integer cycle, k, n;
  main dut(.clk(clk), .reset(reset), .go(go), .done(done));
  task words;
    begin
{tell}
    end
  endtask
  task edge_of_clock;
    begin #1 clk = 1; #1 clk = 0; #1; end
  endtask
  task run;
    begin
      reset = 0; go = 0; #1;
      for (n = 0; n < {waits}; n = n + 1) begin
        if (done !== 1'b0) $display("early %b", done);
        edge_of_clock;
      end
      $display("waited"); words;
      go = 1; cycle = 0; #1;
      while (done === 1'b0 && cycle < {cycles}) begin edge_of_clock; cycle = cycle + 1; end
      $display("done %b %0d", done, cycle); words;
    end
  endtask
  initial begin
    clk = 0; reset = 1; go = 0;
{registers}
{zeros}
{loads}
    for (n = 0; n < {resets}; n = n + 1) begin go = $random; edge_of_clock; end
    run;
    for (n = 0; n < {more}; n = n + 1) begin edge_of_clock; go = $random; end
    reset = 1; #1;
{zeros}
    $display("again"); words;
    for (n = 0; n < {resets}; n = n + 1) begin go = $random; edge_of_clock; end
    run;
    $finish;
  end
endmodule
"""


class Text:
    """The registers and the arrays of a text, each with its path, and its external memories."""

    def __init__(self, text):
        self.bodies = dict(re.findall(r'^module (\w+)\((.*?)^endmodule', text, flags=re.M | re.S))
        self.externals = [line.split(' ') for line in re.findall(r'^// external (.*)$', text, flags=re.M)]
        self.registers, self.arrays = [], {}
        self.walk('main', 'dut')

    def walk(self, module, path):
        body = self.bodies[module]
        self.registers += [(f'{path}.{name}', int(high) + 1) for high, name in re.findall(r'^  reg \[(\d+):0\] (\w+);', body, flags=re.M)]
        for high, name, last in re.findall(r'^  reg \[(\d+):0\] (\w+) \[0:(\d+)\];', body, flags=re.M):
            self.arrays[path] = f'{path}.{name}', int(high) + 1, int(last) + 1
        for kind, name in re.findall(r'^  (\w+) (\w+)\(\.clk', body, flags=re.M):
            self.walk(kind, f'{path}.{name}')

    def memories(self):
        """The name, the array, the width, the sizes and the count of words of each external memory."""
        for name, instance, width, *sizes in self.externals:
            at, _, count = self.arrays[f'dut.{instance}']
            yield name, at, int(width), [int(size) for size in sizes], count


def bench_of(text, held, numbers, is_random):
    memories = list(text.memories())
    tell = [f'      for (k = 0; k < {count}; k = k + 1) $display("%0d", {at}[k]);' for _, at, _, _, count in memories]
    known = [f"    {path} = {width}'h{numbers.getrandbits(width):x};" for path, width in text.registers] if is_random else []
    own = {at for _, at, *_ in memories}
    zeros = [f"    for (k = 0; k < {count}; k = k + 1) {at}[k] = {width}'d0;" for at, width, count in text.arrays.values() if at not in own]
    loads = [f"    {at}[{k}] = {width}'d{word % 2**width};" for name, at, width, *_ in memories for k, word in enumerate(flat(held[name]['data']))]
    return BENCH.format(tell='\n'.join(tell), registers='\n'.join(known), zeros='\n'.join(zeros), loads='\n'.join(loads), cycles=BUDGET + 1,
                        waits=numbers.randrange(10), resets=1 + numbers.randrange(3), more=numbers.randrange(30))


def shaped(words, sizes):
    """Words in row-major order as nested lists."""
    if len(sizes) < 2:
        return words
    step = len(words) // sizes[0]
    return [shaped(words[at:at + step], sizes[1:]) for at in range(0, len(words), step)]


def data_of(text, held, words):
    """A data file of these words, in the order of the external memories."""
    made, at = {}, 0
    for name, _, width, sizes, count in text.memories():
        form = held[name]['format']
        own = [word - 2**width if form['is_signed'] and word >> (width - 1) else word for word in words[at:at + count]]
        made[name], at = {'data': shaped(own, sizes), 'format': form}, at + count
    return json.dumps(made)


def told_by(program, folder, text, data):
    """The cycle and the words that `interp` tells, or the turn of its fault, or None twice where it needs more turns."""
    with open(f'{folder}/again.json', 'w', encoding='ascii') as to:
        to.write(data)
    told = ran([program, 'interp', 'd.futil', 'again.json', str(BUDGET)], folder)
    if told.returncode == 4:
        return 'fault', int(told.stderr.split()[-1])
    if told.returncode:
        return None, None
    dump = json.loads(told.stdout)
    return dump['cycles'], [word % 2**width for name, _, width, *_ in text.memories() for word in flat(dump['memories'][name])]


def parts_of(printed):
    """What was printed: lines, each with the words below it."""
    parts = []
    for line in printed.splitlines():
        if re.match('[a-z]', line):
            parts.append((line, []))
        else:
            parts[-1][1].append(int(line) if line.isdigit() else line)
    return parts


def wrong_run(waited, done, words, told):
    """What a run has otherwise than it should, from these words on."""
    cycle, left = told
    if waited[0] != 'waited' or waited[1] != words:
        return f'without go: {waited[0]}'
    if cycle is None:
        return '' if done[0] == f'done 0 {BUDGET + 1}' else f'{done[0]}, where interp needs more'
    if cycle == 'fault':
        return '' if done[0].split()[1] == '0' or int(done[0].split()[2]) > left else f'{done[0]}, where interp has a fault in turn {left}'
    return '' if done == (f'done 1 {cycle}', left) else f'{done[0]} for {cycle}, or other words'


def faults(program, name, design, data, seed):
    """What is otherwise than it should be; None of a design that is left out."""
    try:
        return differences(program, name, design, data, seed)
    except subprocess.TimeoutExpired as late:
        return f'{name}: {late.cmd[0]} took more than {late.timeout} seconds'


def differences(program, name, design, data, seed):
    """The same, but for what takes too long."""
    numbers = random.Random(f'{seed} {name}')
    with tempfile.TemporaryDirectory(prefix='power_') as folder:
        for file, content in (('d.futil', design), ('d.json', data)):
            with open(f'{folder}/{file}', 'wb') as to:
                to.write(content)
        made = ran([program, 'compile', 'd.futil'], folder)
        if made.returncode:
            return None
        written = made.stdout.decode()
        text, held = Text(written), json.loads(data)
        told = told_by(program, folder, text, data.decode())
        if told[0] is None:
            return None
        first = [word % 2**width for mem, _, width, *_ in text.memories() for word in flat(held[mem]['data'])]
        for is_random in (False, True):
            with open(f'{folder}/b.v', 'w', encoding='ascii') as to:
                to.write(written + bench_of(text, held, numbers, is_random))
            built = ran(['iverilog', '-g2005', '-s', 'bench', '-o', 'b.vvp', 'b.v'], folder)
            if built.returncode:
                return f'{name}: {built.stderr.decode()[:200]}'
            parts = parts_of(ran(['vvp', '-n', 'b.vvp'], folder).stdout.decode())
            if [part[0].split()[0] for part in parts] != ['waited', 'done', 'again', 'waited', 'done']:
                return f'{name}: {[part[0] for part in parts]}'
            again = told_by(program, folder, text, data_of(text, held, parts[2][1]))
            said = wrong_run(parts[0], parts[1], first, told) or wrong_run(parts[3], parts[4], parts[2][1], again)
            if said:
                return f'{name}, {"random" if is_random else "unknown"}: {said}'
    return ''


def main():
    given = argparse.ArgumentParser(usage=__doc__)
    given.add_argument('program')
    given.add_argument('--most', type=int, default=300)
    given.add_argument('--seed', type=int, default=1)
    given.add_argument('cases', nargs='*')
    words = given.parse_intermixed_args()
    if not (shutil.which('iverilog') and shutil.which('vvp')):
        print('iverilog or vvp is not there: skipped')
        return 0
    program, told = os.path.abspath(words.program), []
    designs = itertools.chain(examples(), cases(words.cases))
    with concurrent.futures.ThreadPoolExecutor(os.cpu_count() or 1) as pool:
        while len(told) < words.most and (some := list(itertools.islice(designs, words.most - len(told)))):
            told += [fault for fault in pool.map(lambda design: faults(program, *design, words.seed), some) if fault is not None]
    wrong = [fault for fault in told if fault]
    print(*wrong, f'{len(told) - len(wrong)} passed, {len(wrong)} failed', sep='\n')
    return 1 if wrong or not told else 0


if __name__ == '__main__':
    raise SystemExit(main())
