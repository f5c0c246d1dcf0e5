#!/usr/bin/env python3
"""Refuses each allocation of a run in turn.

    bench/alloc.py PROGRAM [--most N]

PROGRAM is the built calyx_cli. A small library, which `cc` compiles and which is loaded before the C library, counts what the program asks of
`malloc` and `realloc`, and refuses the request of a number. The runs are the commands of COMMANDS on some designs and `sim` of what
`compile` wrote, `sim` of a hand-written text, and `trial 0`; each is made once for each of its requests, or with `--most` for so many of them that
lie evenly. A command that the program does not know is left out, which is told. It has to end with status 7, with nothing on standard output and `memory` or nothing on standard error, or with its own status and
output. Request 300 of `trial 0` has to give 7. The choices of `weave` have to take no memory: a run of 100,000 choices, in which statements of all kinds open and end, has as many
requests as one of 1,000. Printed are the requests of each run, and how many gave 7. The last line is 'N passed, M failed'; the status is 1 where one failed.
"""
import argparse
import concurrent.futures
import json
import os
import subprocess
import sys
import tempfile

from interp import product

SECONDS = 120
SHIM = r'''
#include <fcntl.h>
#include <stdio.h>
#include <stdlib.h>
#include <unistd.h>
extern void *__libc_malloc(size_t);
extern void *__libc_realloc(void *, size_t);
static unsigned long calls, refused;
__attribute__((constructor)) static void begin(void) {
  const char *number = getenv("REFUSED");
  refused = number ? strtoul(number, 0, 10) : 0;
  calls = 0;
}
__attribute__((destructor)) static void end(void) {
  const char *name = getenv("COUNTED");
  int file = name ? open(name, O_WRONLY | O_CREAT | O_TRUNC, 0600) : -1;
  if (file >= 0) dprintf(file, "%lu", calls);
}
void *malloc(size_t size) { return ++calls == refused ? 0 : __libc_malloc(size); }
void *realloc(void *old, size_t size) { return ++calls == refused ? 0 : __libc_realloc(old, size); }
'''


def memory(words, width=32, signed=False):
    return {'data': words, 'format': {'numeric_type': 'bitnum', 'is_signed': signed, 'width': width}}


def design(cells, wires, control, behind=''):
    return f'component main() -> () {{\ncells {{\n{cells}\n}} wires {{\n{wires}\n}} control {{\n{control}\n}} }}\n{behind}'


ONE = '@external mem = std_mem_d1(32, 1, 1);'
FIVE = {'mem': memory([5])}


def store(name, value):
    return f"group {name} {{ mem.addr0 = 1'd0; mem.write_data = {value}; mem.write_en = 1'd1; {name}[done] = mem.done; }} "


def whole_path():
    wires = ("group rd { mem.addr0 = 1'd0; r.in = mem.read_data; r.write_en = 1'd1; rd[done] = r.done; } "
             "group up { a.left = r.out; a.right = 32'd3; r.in = a.out; r.write_en = 1'd1; up[done] = r.done; } ")
    return design(f'{ONE} r = std_reg(32); a = std_add(32);', wires + store('wr', 'r.out'), 'seq { rd; up; wr; }'), FIVE


def call():
    twice = ("component dbl(x: 32) -> (y: 32) { cells { r = std_reg(32); a = std_add(32); } wires { y = r.out; "
             "group p { r.in = x; r.write_en = 1'd1; p[done] = r.done; } "
             "group q { a.left = r.out; a.right = r.out; r.in = a.out; r.write_en = 1'd1; q[done] = r.done; } } control { seq { p; q; } } }\n")
    control = "seq { invoke c(x = 32'd3)(); invoke c(x = 32'd5)(); st; }"
    return design(f'{ONE} c = dbl(); k = std_reg(32);', store('st', 'c.y') + store('su', 'k.out'), control, twice), FIVE


def island():
    wires = "static<2> group s { r.in = %0 ? 32'd4; r.in = %1 ? 32'd9; r.write_en = 1'd1; } "
    return design(f'{ONE} r = std_reg(32);', wires + store('st', 'r.out'), 'seq { s; st; }'), FIVE


def endless():
    """Arms that never end: a call in a seq, rounds, an island, and a par in a choice."""
    twice = ("component inc(x: 32) -> () { cells { r = std_reg(32); } wires { group p { r.in = x; r.write_en = 1'd1; p[done] = r.done; } } "
             "control { seq { p; p; } } }\n")
    wires = ("n.in = k.out; static<2> group s { t.in = %0 ? 32'd4; t.in = %1 ? 32'd9; t.write_en = 1'd1; } "
             + ' '.join(f"group {name} {{ {cell}.in = 32'd1; {cell}.write_en = 1'd1; {name}[done] = {cell}.done; }}" for name, cell in (('a', 'u'), ('b', 'v'), ('e', 'w'), ('f', 'x'))))
    control = ("par { while n.out { seq { a; invoke c(x = 32'd3)(); } } while n.out { repeat 3 { b; } } while n.out { s; } "
               "while n.out { if n.out { par { e; f; } } } }")
    cells = 'k = std_reg(1); n = std_not(1); c = inc(); t = std_reg(32); u = std_reg(32); v = std_reg(32); w = std_reg(32); x = std_reg(32);'
    return design(cells, wires, control, twice)


def signed_memories():
    wires = ' '.join(f"group c{k} {{ src.addr0 = 2'd{k}; dst.addr0 = 2'd{k}; dst.write_data = src.read_data; dst.write_en = 1'd1; c{k}[done] = dst.done; }}"
                     for k in range(3))
    cells = '@external src = std_mem_d1(8, 3, 2); @external dst = std_mem_d1(8, 3, 2);'
    return design(cells, wires, 'seq { c0; c1; c2; }'), {'src': memory([-128, 127, -1], 8, True), 'dst': memory([0, 0, 0], 8, True)}


def matrix_product():
    shape = product('an 8 by 8 matrix product')
    return shape.text, {name: memory(words) for name, words in shape.before.items()}


# What is run on each design. A command more is a line more.
COMMANDS = (
    ('check', 'design'),
    ('compile', 'design'),
    ('share', 'design'),
    ('promote', 'design'),
    ('flatten', 'design'),
    ('instrument', 'design'),
    ('interp', 'design', 'data', '1000'),
    ('profile', 'design', 'data', '1000'),
    ('weave', 'design', 'data', '100000', '1,0'),
)
DESIGNS = {'whole path': whole_path, 'call': call, 'island': island, 'signed memories': signed_memories, 'matrix product': matrix_product}
COUNTER = ('module main(\n  input wire [0:0] clk,\n  input wire [0:0] reset,\n  input wire [0:0] go,\n  output wire [0:0] done\n);\n  reg [3:0] n;\n'
           "  assign done = (n == 4'ha);\n  always @(posedge clk) begin\n    if (reset) begin\n      n <= 4'h0;\n    end else begin\n"
           "      n <= (n + 4'h1);\n    end\n  end\nendmodule\n")


class Runs:
    """Runs of the program in a folder, of which a request may be refused."""

    def __init__(self, program, folder):
        self.program, self.folder = os.path.abspath(program), folder
        self.shim = os.path.join(folder, 'refusing.so')
        subprocess.run(['cc', '-O2', '-shared', '-fPIC', '-x', 'c', '-', '-o', self.shim], input=SHIM.encode(), check=True)

    def write(self, name, content):
        with open(os.path.join(self.folder, name), 'wb') as file:
            file.write(content if isinstance(content, bytes) else content.encode())

    def outcome(self, words, **environment):
        ran = subprocess.run([self.program, *words], cwd=self.folder, stdin=subprocess.DEVNULL, capture_output=True, timeout=SECONDS, check=False,
                             env={'LD_PRELOAD': self.shim, **environment})
        return ran.returncode, ran.stdout, ran.stderr

    def whole(self, words):
        """What the run comes to, and its requests."""
        counted = os.path.join(self.folder, 'requests')
        told = self.outcome(words, COUNTED=counted)
        with open(counted, encoding='ascii') as file:
            return told, int(file.read())


def chosen(count, most):
    """The numbers of the requests that are refused."""
    if not most or count <= most:
        return range(1, count + 1)
    return sorted({1 + n * (count - 1) // (most - 1) for n in range(most)})


def swept(runs, name, words, most, wanted=None):
    """The lines of what went wrong where a request was refused, and how many runs went well."""
    told, count = runs.whole(words)
    wrong = [] if told[0] == 0 else [f'{name}: status {told[0]}, {told[2]!r}']
    numbers = sorted({*chosen(count, most), *([wanted] if wanted else [])})
    wants = ((7, b'', b'memory\n'), (7, b'', b''))
    with concurrent.futures.ThreadPoolExecutor(os.cpu_count() or 1) as pool:
        outcomes = list(pool.map(lambda n: runs.outcome(words, REFUSED=str(n)), numbers))
    for number, outcome in zip(numbers, outcomes):
        if outcome not in wants and (outcome != told or number == wanted):
            wrong.append(f'{name}: request {number}: status {outcome[0]}, {len(outcome[1])} bytes, {outcome[2]!r}')
    refused = sum(outcome[0] == 7 for outcome in outcomes)
    print(f'{name}: {count} requests, {len(numbers)} refused in turn, status 7 in {refused}', flush=True)
    return wrong, len(numbers) + 1 - len(wrong)


def known(runs):
    """The commands that the program knows; it says of the others that the words are none of a command."""
    for words in COMMANDS:
        if runs.outcome(words) == (1, b'', b'words\n'):
            print(f'{words[0]}: not in this program', flush=True)
        else:
            yield words


def plan(runs):
    """The name and the words of each run. A design's text is compiled on the way."""
    commands = list(known(runs))
    for name, make in DESIGNS.items():
        text, data = make()
        runs.write('design', text)
        runs.write('data', json.dumps(data))
        for words in commands:
            yield f'{words[0]}, {name}', list(words)
        runs.write('verilog', runs.outcome(['compile', 'design'])[1])
        yield f'sim, {name}', ['sim', 'verilog', 'data', '1000']
    runs.write('counter', COUNTER)
    runs.write('none', '{}')
    yield 'sim, hand-written', ['sim', 'counter', 'none', '1000']
    yield 'trial 0', ['trial', '0']


def grows(runs):
    """What is wrong with the requests of many choices."""
    runs.write('design', endless())
    runs.write('none', '{}')
    few, many = (runs.whole(['weave', 'design', 'none', choices, '3,1,2,0,5']) for choices in ('1000', '100000'))
    print(f'weave, endless: {few[1]} requests in 1,000 choices, {many[1]} in 100,000', flush=True)
    wanted = ((3, b'', b'more 1000\n'), (3, b'', b'more 100000\n'))
    return [] if (few[0], many[0]) == wanted and few[1] == many[1] else [f'weave, endless: {few}, {many}']


def main():
    parser = argparse.ArgumentParser(description='Refuses each allocation of a run in turn.')
    parser.add_argument('program')
    parser.add_argument('--most', type=int, default=0)
    options = parser.parse_args()
    failed, passed = [], 0
    with tempfile.TemporaryDirectory(prefix='alloc_') as folder:
        runs = Runs(options.program, folder)
        for name, words in plan(runs):
            wrong, well = swept(runs, name, words, options.most, 300 if words[0] == 'trial' else None)
            failed, passed = failed + wrong, passed + well
        wrong = grows(runs)
        failed, passed = failed + wrong, passed + (not wrong)
    print(*failed, f'{passed} passed, {len(failed)} failed', sep='\n')
    return 1 if failed else 0


if __name__ == '__main__':
    sys.exit(main())
