#!/usr/bin/env python3
"""Times simulations by `sim` beside those of Icarus Verilog, on the same texts, or beside those of the programs that Verilator makes of them.

    bench/sim.py PROGRAM [--verilator]

PROGRAM is the built calyx_cli. Icarus Verilog is installed where it is not there (Debian's package iverilog); where that fails only `sim` is
timed. Both have to end in the same cycle with the same words, which is asserted. Printed are the cycles, the best time of three in
seconds, that of `vvp`, and how many times as long `sim` takes. The time of a run that ends in cycle 1 is left out of both. Then come texts that
`compile` writes: of these all of a run is timed, and `vvp` without `iverilog`. Last texts of 5, 20 and 80 MB are read and looked at for a cycle: printed are the seconds, and the peak of memory in MiB and for each byte of the text.
Then come texts of 1,000 to 8,000 modules, each with an instance in `main`.

With `--verilator` a table in Markdown is printed in place of all that: of each run the cycles, the best seconds of three of `sim`, from the start of the process to its
end, those of the program that `verilator --cc --build` makes of the same text and a loop in C++ that turns its clock, how many times as long `sim` takes, the seconds in
which that program was built, and how many times as long as the building and one run `sim` takes. Both have to print the same line.
"""
import json
import os
import re
import shutil
import subprocess
import sys
import tempfile
import time

TOOLS = os.path.join(os.path.dirname(os.path.abspath(__file__)), '..', 'tools')
sys.path.append(TOOLS)

import testbench

ROUNDS = 3
# `vvp` takes minutes for texts of more enables.
LONGEST = 5_000
TESTBENCH = os.path.join(TOOLS, 'testbench.py')
BUDGET = '1000000000000'
PORTS = '(\n  input wire [0:0] clk,\n  input wire [0:0] reset,\n'
MAIN = 'module main' + PORTS + '  input wire [0:0] go,\n  output wire [0:0] done\n);\n'

# The cycles as `sim` counts them: one edge with reset 1 and go 0, then cycles 0, 1, .. with reset 0 and go 1, each looked at before its edge.
BENCH = """module bench;
  reg clk = 0, reset = 1, go = 0;
  wire done;
  integer cycle = 0, k;
  main dut(.clk(clk), .reset(reset), .go(go), .done(done));
  initial begin
    {loads}
    #1 clk = 1; #1 clk = 0; reset = 0; go = 1; #1;
    while (!done) begin
      clk = 1; #1 clk = 0; #1;
      cycle = cycle + 1;
    end
    $display("%0d", cycle);
    {dumps}
    $finish;
  end
endmodule
"""

# What Verilator makes a class of: the words are set before the first edge, and written behind the last.
HELD = """module bench(input clk, input reset, input go, output done);
  integer k;
  main dut(.clk(clk), .reset(reset), .go(go), .done(done));
  initial begin
{loads}
  end
  final begin
{dumps}
  end
endmodule
"""

# The same cycles as those of BENCH.
TURNS = """#include "Vbench.h"
#include <cstdio>

int main() {
  Vbench bench;
  auto step = [&](int clk) { bench.clk = clk; bench.eval(); };
  bench.reset = 1;
  bench.go = 0;
  step(0);
  step(1);
  bench.reset = 0;
  bench.go = 1;
  step(0);
  unsigned long cycle = 0;
  for (; !bench.done; ++cycle) { step(1); step(0); }
  std::printf("{\\"cycles\\":%lu,\\"memories\\":{", cycle);
  bench.final();
  std::printf("}}\\n");
}
"""


def always(sets, resets=()):
    """A block of edges, of the lines under reset and of the others."""
    lines = ['  always @(posedge clk) begin', '    if (reset) begin', *resets, '    end else begin', *sets, '    end', '  end']
    return ''.join(line + '\n' for line in lines)


def ends_at(cycles):
    return f"  reg [31:0] n;\n  assign done = (n == 32'h{cycles:x});\n", "      n <= (n + 32'h1);"


def counter(cycles):
    head, step = ends_at(cycles)
    return MAIN + head + always([step]) + 'endmodule\n'


def memory_walk(cycles):
    """Each cycle adds a number to one of 4,096 words, one after the other."""
    memory = ('module cx_m' + PORTS + '  input wire [11:0] a,\n  input wire [31:0] d,\n  input wire [0:0] we,\n  output wire [31:0] q\n);\n'
              '  reg [31:0] m [0:4095];\n  assign q = m[a];\n' + always(['      if (we) m[a] <= d;']) + 'endmodule\n')
    head, step = ends_at(cycles)
    regs, assigns = head.split('\n', 1)
    body = (regs + '\n  wire [11:0] a;\n  wire [31:0] d;\n  wire [31:0] q;\n  assign a = n[11:0];\n  assign d = (q + n);\n' + assigns
            + '  cx_m i(.clk(clk), .reset(reset), .a(a), .d(d), .we(go), .q(q));\n')
    return '// external mem i 32 4096\n' + memory + MAIN + body + always([step]) + 'endmodule\n'


def counters(cycles):
    """64 registers that count, each by a number of its own."""
    head, step = ends_at(cycles)
    regs = ''.join(f'  reg [31:0] r{k};\n' for k in range(64))
    first, assigns = head.split('\n', 1)
    return MAIN + first + '\n' + regs + assigns + always([step] + [f"      r{k} <= (r{k} + 32'h{k + 1:x});" for k in range(64)]) + 'endmodule\n'


def pipeline(cycles):
    """A product by 64 stages of shift and add, one bit of a factor each, with a new product in each cycle."""
    head, step = ends_at(cycles)
    first, assigns = head.split('\n', 1)
    regs = ''.join(f'  reg [63:0] a{k};\n  reg [63:0] b{k};\n  reg [63:0] p{k};\n' for k in range(65))
    sets = [step, "      a0 <= (a0 + 64'h9);", '      b0 <= (b0 + p64);', "      p0 <= 64'h0;"]
    for k in range(64):
        sets += [f"      a{k + 1} <= (a{k} << 64'h1);", f"      b{k + 1} <= (b{k} >> 64'h1);", f'      p{k + 1} <= (b{k}[0:0] ? (p{k} + a{k}) : p{k});']
    resets = ["      a0 <= 64'h123456789abcdef;", "      b0 <= 64'hfedcba987654321;"]
    return MAIN + first + '\n' + regs + assigns + always(sets, resets) + 'endmodule\n'


def chained(name, part, count):
    """A module of so many instances of another, each of which takes what the one before gives."""
    wires = ''.join(f'  wire [31:0] w{k};\n' for k in range(count))
    made = ''.join(f"  {part} i{k}(.clk(clk), .reset(reset), .x({f'w{k - 1}' if k else 'x'}), .y(w{k}));\n" for k in range(count))
    return f'module {name}{PORTS}  input wire [31:0] x,\n  output wire [31:0] y\n);\n{wires}  assign y = w{count - 1};\n{made}endmodule\n'


def tree(cycles):
    """A tree of 1,001 instances, three deep: eleven parts of nine parts of nine registers."""
    leaf = ('module cx_r' + PORTS + '  input wire [31:0] x,\n  output wire [31:0] y\n);\n  reg [31:0] r;\n  assign y = r;\n'
            + always(['      r <= x;']) + 'endmodule\n')
    head, step = ends_at(cycles)
    first, assigns = head.split('\n', 1)
    wires = ''.join(f'  wire [31:0] w{k};\n' for k in range(11))
    made = ''.join(f"  cx_b i{k}(.clk(clk), .reset(reset), .x({f'w{k - 1}' if k else 'n'}), .y(w{k}));\n" for k in range(11))
    return (leaf + chained('cx_a', 'cx_r', 9) + chained('cx_b', 'cx_a', 9) + MAIN + first + '\n' + wires + assigns + made + always([step])
            + 'endmodule\n')


SHAPES = (
    ('a counter', counter, 1_000_000, 0),
    ('64 counters', counters, 50_000, 0),
    ('64 stages of shift and add', pipeline, 10_000, 0),
    ('a walk over 4,096 words', memory_walk, 300_000, 4_096),
    ('a tree of 1,001 instances', tree, 3_000, 0),
)


def best(words):
    """The output and the best time of a few runs."""
    times = []
    for _ in range(ROUNDS):
        begin = time.perf_counter()
        ran = subprocess.run(words, capture_output=True, check=True, text=True)
        times.append(time.perf_counter() - begin)
    return ran.stdout, min(times)


def zeros(text):
    """The text with registers that begin with 0."""
    return re.sub(r'^(  reg \[\d+:0\] \w+);', r'\1 = 0;', text, flags=re.M)


def by_icarus(folder, text, words):
    """The cycle, the words and the seconds of `vvp`."""
    loads = f'for (k = 0; k < {words}; k = k + 1) dut.i.m[k] = k;' if words else ''
    dumps = f'for (k = 0; k < {words}; k = k + 1) $display("%0d", dut.i.m[k]);' if words else ''
    with open(folder + '/b.v', 'w', encoding='ascii') as file:
        file.write(zeros(text) + BENCH.format(loads=loads, dumps=dumps))
    subprocess.run(['iverilog', '-g2005', '-s', 'bench', '-o', folder + '/b.vvp', folder + '/b.v'], check=True)
    out, took = best(['vvp', '-n', folder + '/b.vvp'])
    cycle, *held = [int(line) for line in out.split('\n') if line.strip().isdigit()]
    return cycle, held, took


def data_of(words):
    """The data file of a text whose memory has so many words."""
    return {'mem': {'data': list(range(words)), 'format': {'numeric_type': 'bitnum', 'is_signed': False, 'width': 32}}} if words else {}


def by_sim(program, folder, text, words):
    """The cycle, the words and the seconds of `sim`."""
    with open(folder + '/v.v', 'w', encoding='ascii') as file:
        file.write(text)
    with open(folder + '/v.json', 'w', encoding='ascii') as file:
        json.dump(data_of(words), file)
    out, took = best([program, 'sim', folder + '/v.v', folder + '/v.json', BUDGET])
    told = json.loads(out)
    return told['cycles'], told['memories'].get('mem', []), took


def enables(count):
    """A seq of so many enables of four groups that write registers."""
    cells = ''.join(f'r{k} = std_reg(32); ' for k in range(4))
    groups = ''.join(f"group g{k} {{ r{k}.in = r{(k + 1) % 4}.out; r{k}.write_en = 1'd1; g{k}[done] = r{k}.done; }} " for k in range(4))
    parts = ' '.join(f'g{k % 4};' for k in range(count))
    return f'component main() -> () {{ cells {{ {cells} }} wires {{ {groups} }} control {{ seq {{ {parts} }} }} }}\n', '{}'


def occurrences(count):
    """An island of so many enables of a static group, one after the other."""
    parts = ' '.join('g;' for _ in range(count))
    group = "static<1> group g { r.in = a.out; r.write_en = 1'd1; a.left = r.out; a.right = 32'd1; }"
    return f'component main() -> () {{ cells {{ r = std_reg(32); a = std_add(32); }} wires {{ {group} }} control {{ static seq {{ {parts} }} }} }}\n', '{}'


def loops(count):
    """Loops in the arms of a par, each to a thousand."""
    cells = ''.join(f'r{k} = std_reg(32); a{k} = std_add(32); l{k} = std_lt(32); ' for k in range(count))
    groups = ''.join(f"group g{k} {{ a{k}.left = r{k}.out; a{k}.right = 32'd1; r{k}.in = a{k}.out; r{k}.write_en = 1'd1; g{k}[done] = r{k}.done; }} "
                     f"comb group c{k} {{ l{k}.left = r{k}.out; l{k}.right = 32'd1000; }} " for k in range(count))
    arms = ' '.join(f'while l{k}.out with c{k} {{ g{k}; }}' for k in range(count))
    return f'component main() -> () {{ cells {{ {cells} }} wires {{ {groups} }} control {{ par {{ {arms} }} }} }}\n', '{}'


def product(_):
    """The 8 by 8 matrix product of examples/."""
    at = os.path.join(os.path.dirname(os.path.abspath(__file__)), '..', 'examples', 'matrix_product')
    with open(at + '.futil', encoding='utf-8') as design, open(at + '.json', encoding='utf-8') as data:
        return design.read(), data.read()


COMPILED = (
    ('the matrix product', product, 8),
    ('64 loops in a par', loops, 64),
    ('a seq of 1,000 enables', enables, 1_000),
    ('a seq of 4,000 enables', enables, 4_000),
    ('a seq of 15,990 enables', enables, 15_990),
    ('an island of 4,096 enables', occurrences, 4_096),
)


def compiled(program, folder, design, data, compares):
    """The cycle, the seconds of `sim`, and those of `vvp` where it is asked for, of what `compile` writes."""
    for name, text in (('d.futil', design), ('d.json', data)):
        with open(f'{folder}/{name}', 'w', encoding='ascii') as file:
            file.write(text)
    made = subprocess.run([program, 'compile', folder + '/d.futil'], capture_output=True, check=True)
    with open(folder + '/d.v', 'wb') as file:
        file.write(made.stdout)
    wanted = subprocess.run([program, 'interp', folder + '/d.futil', folder + '/d.json', BUDGET], capture_output=True, check=True, text=True).stdout
    out, took = best([program, 'sim', folder + '/d.v', folder + '/d.json', BUDGET])
    assert out == wanted, (out, wanted)
    cycles = json.loads(out)['cycles']
    if not compares:
        return cycles, took, None
    bench = subprocess.run([TESTBENCH, folder + '/d.v', folder + '/d.json', str(cycles + 1)], capture_output=True, check=True)
    with open(folder + '/b.v', 'wb') as file:
        file.write(bench.stdout)
    subprocess.run(['iverilog', '-g2005', '-s', 'bench', '-o', folder + '/b.vvp', folder + '/b.v', folder + '/d.v'], check=True)
    told, other = best(['vvp', '-n', folder + '/b.vvp'])
    assert told == wanted, (told, wanted)
    return cycles, took, other


def by_verilator(folder, text, data):
    """The line, the seconds of the program that Verilator makes of a text, and those in which it is built."""
    parts = testbench.Text(text)
    held = HELD.format(loads='\n'.join(testbench.loads(parts, data)), dumps='\n'.join(testbench.dumps(parts, data)))
    for name, written in (('bench.v', held), ('text.v', text), ('turns.cpp', TURNS)):
        with open(f'{folder}/{name}', 'w', encoding='ascii') as file:
            file.write(written)
    begin = time.perf_counter()
    subprocess.run(['verilator', '--cc', '--exe', '--build', '-O3', '-MAKEFLAGS', 'OPT_FAST=-O2', '-Wno-fatal', '-Wno-lint', '--top-module', 'bench', 'bench.v', 'text.v', 'turns.cpp'],
                   cwd=folder, capture_output=True, check=True)
    built = time.perf_counter() - begin
    return *best([folder + '/obj_dir/Vbench']), built


def beside_verilator(program, text, data):
    """The row of a text: its cycles, and the seconds of `sim` and of Verilator's program."""
    with tempfile.TemporaryDirectory(prefix='sim_') as folder:
        for name, written in (('v.v', text), ('v.json', json.dumps(data))):
            with open(f'{folder}/{name}', 'w', encoding='ascii') as file:
                file.write(written)
        wanted, ours = best([program, 'sim', folder + '/v.v', folder + '/v.json', BUDGET])
        line, theirs, built = by_verilator(folder, text, data)
    assert line == wanted, (line[:200], wanted[:200])
    return f'{json.loads(wanted)["cycles"]:,} | {ours:.3f} | {theirs:.3f} | {ours / theirs:.2f} | {built:.1f} | {ours / (built + theirs):.4f}'


def text_of(program, design):
    """What `compile` writes of a design."""
    with tempfile.NamedTemporaryFile('w', suffix='.futil', encoding='ascii') as file:
        file.write(design)
        file.flush()
        return subprocess.run([program, 'compile', file.name], capture_output=True, check=True, text=True).stdout


def table_of_verilator(program):
    """Prints the table beside the programs that Verilator makes."""
    if not shutil.which('verilator'):
        sys.exit('verilator is not installed')
    print("| Run | Cycles | `sim`, seconds | Verilator's program | Times as long | Building it, seconds | Times as long as building and a run |", '|---|---|---|---|---|---|---|', sep='\n')
    for name, make, cycles, words in SHAPES:
        print(f'| {name} | {beside_verilator(program, make(cycles), data_of(words))} |', flush=True)
    for name, make, count in COMPILED:
        if count <= LONGEST:
            design, data = make(count)
            print(f'| compiled: {name} | {beside_verilator(program, text_of(program, design), json.loads(data))} |', flush=True)


def long_text(size):
    """Wires that each add 1 to the one before, in a text of about so many bytes."""
    lines = size // 62
    wires = ''.join(f'  wire [31:0] w{k};\n' for k in range(1, lines))
    assigns = ''.join(f"  assign w{k + 1} = (w{k} + 32'h1);\n" for k in range(1, lines - 1))
    return MAIN + wires + "  assign done = 1'h0;\n  assign w1 = 32'h0;\n" + assigns + 'endmodule\n'


def many_modules(count):
    """So many modules of a register, and an instance of each in `main`, one behind the other."""
    ports = '  input wire [31:0] d,\n  output wire [31:0] q\n);\n  reg [31:0] v;\n  assign q = v;\n'
    body = ports + always(['      v <= d;'], ["      v <= 32'h0;"]) + 'endmodule\n'
    modules = ''.join(f'module cx_m{k}' + PORTS + body for k in range(1, count + 1))
    wires = ''.join(f'  wire [31:0] w{k};\n' for k in range(count + 1))
    instances = ''.join(f'  cx_m{k} i{k}(.clk(clk), .reset(reset), .d(w{k - 1}), .q(w{k}));\n' for k in range(1, count + 1))
    return modules + MAIN + wires + "  assign done = 1'h0;\n  assign w0 = 32'h1;\n" + instances + 'endmodule\n'


def read(program, folder, text):
    """The bytes of a text, the seconds in which it is read and looked at for a cycle, and the peak of memory in bytes."""
    with open(folder + '/v.v', 'w', encoding='ascii') as file:
        file.write(text)
    with open(folder + '/v.json', 'w', encoding='ascii') as file:
        file.write('{}')
    begin = time.perf_counter()
    with open(os.devnull, 'w', encoding='ascii') as nothing:
        ran = subprocess.Popen([program, 'sim', folder + '/v.v', folder + '/v.json', '0'], stderr=nothing)
        _, status, used = os.wait4(ran.pid, 0)
    assert os.waitstatus_to_exitcode(status) == 3, status
    return len(text), time.perf_counter() - begin, used.ru_maxrss * 1024


def has_icarus():
    """Whether Icarus Verilog is there, or could be installed."""
    if not shutil.which('vvp'):
        subprocess.run('apt-get update && apt-get install -y iverilog', shell=True, capture_output=True, check=False)
    return shutil.which('vvp') is not None


def main():
    if len(sys.argv) < 2:
        sys.exit(__doc__.strip())
    program = os.path.abspath(sys.argv[1])
    if sys.argv[2:] == ['--verilator']:
        table_of_verilator(program)
        return
    compares = has_icarus()
    with tempfile.TemporaryDirectory() as folder:
        for name, make, cycles, words in SHAPES:
            ours = by_sim(program, folder, make(cycles), words)
            seconds = ours[2] - by_sim(program, folder, make(1), words)[2]
            line = f'{name:28} {cycles:9} cycles {seconds:8.3f} s'
            if compares:
                theirs = by_icarus(folder, make(cycles), words)
                assert ours[:2] == theirs[:2], (name, ours[:2], theirs[:2])
                other = theirs[2] - by_icarus(folder, make(1), words)[2]
                line += f' {other:8.3f} s {seconds / other:6.2f}'
            print(line)
        for name, make, count in COMPILED:
            cycles, seconds, other = compiled(program, folder, *make(count), compares and count <= LONGEST)
            print(f'{name:28} {cycles:9} cycles {seconds:8.3f} s' + (f' {other:8.3f} s {seconds / other:6.2f}' if other else ''))
        for size in (5_000_000, 20_000_000, 80_000_000):
            length, seconds, peak = read(program, folder, long_text(size))
            print(f'a text of {length:11,} bytes {seconds:8.3f} s {peak / 2**20:6.0f} MiB {peak / length:6.1f}')
        for count in (1_000, 2_000, 4_000, 8_000):
            length, seconds, _ = read(program, folder, many_modules(count))
            print(f'{count:6,} modules, {length:11,} bytes {seconds:8.3f} s')


if __name__ == '__main__':
    main()
