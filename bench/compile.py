#!/usr/bin/env python3
"""Times `compile` against the size of designs, beside the reading of the same texts by Yosys.

    bench/compile.py PROGRAM

PROGRAM is the built calyx_cli. Of three shapes of designs, each of about 1,000, 4,000 and 16,000 units of size (`compile` takes 16,384): one group
after another; the arms of a matrix product beside each other; and groups in a tree of `par`s. Printed are the size, the best time of three in
seconds, the bytes of the text and for each unit of size, the nets over the instance tree for each unit of weight, and the seconds in which
`yosys -p read_verilog` starts and reads the text, where it is installed and takes no longer than a minute. Each text is run by `sim` too: `done` has to come in the cycle that
`interp` tells.
"""
import json
import os
import re
import shutil
import subprocess
import sys
import tempfile
import time

ROUNDS = 3
SIZES = (1_000, 4_000, 16_000)


class Design:
    """A component `main`, and its size as it grows."""

    def __init__(self):
        self.cells, self.groups, self.size = [], [], 1

    def cell(self, text):
        self.cells.append(text)
        self.size += 1

    def group(self, name, assigns, nodes=0, word='group'):
        """A group of these assignments, whose guards have so many nodes."""
        self.groups.append(f'{word} {name} {{ {" ".join(assigns)} }}')
        self.size += 1 + len(assigns) + nodes

    def text(self, control, statements):
        self.size += statements
        lines = ['component main() -> () {', 'cells {', *self.cells, '} wires {', *self.groups, '} control {', control, '} }', '']
        return '\n'.join(lines)


def write(design, k):
    """A register and a group that writes it."""
    design.cell(f'r{k} = std_reg(8);')
    design.group(f'g{k}', [f"r{k}.in = 8'd{k % 256};", f"r{k}.write_en = 1'd1;", f'g{k}[done] = r{k}.done;'])
    return f'g{k};'


def one_after_another(size):
    design = Design()
    parts = [write(design, k) for k in range(size // 6)]
    return design.text('seq { ' + ' '.join(parts) + ' }', len(parts) + 1), design.size


def tree_of_pars(size):
    design = Design()
    parts = [write(design, k) for k in range(size // 7)]
    statements = len(parts)
    while len(parts) > 1:
        pairs = [parts[k:k + 2] for k in range(0, len(parts), 2)]
        statements += sum(len(pair) == 2 for pair in pairs)
        parts = [f'par {{ {" ".join(pair)} }}' if len(pair) == 2 else pair[0] for pair in pairs]
    return design.text(parts[0], statements), design.size


def product_arm(design, r):
    """An arm of a matrix product: a row of 8 words times a matrix of 8 by 8, by a multiplier of its own."""
    for cell in ('A{0} = std_mem_d1(32, 8, 4);', 'B{0} = std_mem_d2(32, 8, 8, 4, 4);', 'C{0} = std_mem_d1(32, 8, 4);', 'm{0} = std_mult_pipe(32);',
                 'p{0} = std_reg(32);', 'acc{0} = std_reg(32);', 'k{0} = std_reg(4);', 'j{0} = std_reg(4);', 'ap{0} = std_add(32);',
                 'ak{0} = std_add(4);', 'aj{0} = std_add(4);', 'lk{0} = std_lt(4);', 'lj{0} = std_lt(4);'):
        design.cell(cell.format(r))
    for name, assigns, nodes, word in (
            ('zj', ["j{0}.in = 4'd0;", "j{0}.write_en = 1'd1;", 'zj{0}[done] = j{0}.done;'], 0, 'group'),
            ('zk', ["k{0}.in = 4'd0;", "k{0}.write_en = 1'd1;", "acc{0}.in = 32'd0;", "acc{0}.write_en = 1'd1;",
                    "zk{0}[done] = k{0}.done & acc{0}.done ? 1'd1;"], 3, 'group'),
            ('mul', ['A{0}.addr0 = k{0}.out;', 'B{0}.addr0 = k{0}.out;', 'B{0}.addr1 = j{0}.out;', 'm{0}.left = A{0}.read_data;',
                     'm{0}.right = B{0}.read_data;', "m{0}.go = !m{0}.done ? 1'd1;", 'p{0}.in = m{0}.out;', 'p{0}.write_en = m{0}.done;',
                     'mul{0}[done] = p{0}.done;'], 2, 'group'),
            ('sum', ['ap{0}.left = acc{0}.out;', 'ap{0}.right = p{0}.out;', 'acc{0}.in = ap{0}.out;', "acc{0}.write_en = 1'd1;",
                     'sum{0}[done] = acc{0}.done;'], 0, 'group'),
            ('nk', ['ak{0}.left = k{0}.out;', "ak{0}.right = 4'd1;", 'k{0}.in = ak{0}.out;', "k{0}.write_en = 1'd1;", 'nk{0}[done] = k{0}.done;'], 0, 'group'),
            ('sto', ['C{0}.addr0 = j{0}.out;', 'C{0}.write_data = acc{0}.out;', "C{0}.write_en = 1'd1;", 'sto{0}[done] = C{0}.done;'], 0, 'group'),
            ('nj', ['aj{0}.left = j{0}.out;', "aj{0}.right = 4'd1;", 'j{0}.in = aj{0}.out;', "j{0}.write_en = 1'd1;", 'nj{0}[done] = j{0}.done;'], 0, 'group'),
            ('tk', ['lk{0}.left = k{0}.out;', "lk{0}.right = 4'd8;"], 0, 'comb group'),
            ('tj', ['lj{0}.left = j{0}.out;', "lj{0}.right = 4'd8;"], 0, 'comb group')):
        design.group(f'{name}{r}', [assign.format(r) for assign in assigns], nodes, word)
    return ('seq {{ zj{0}; while lj{0}.out with tj{0} {{ seq {{ zk{0}; while lk{0}.out with tk{0} {{ seq {{ mul{0}; sum{0}; nk{0}; }} }} '
            'sto{0}; nj{0}; }} }} }}').format(r)


def matrix_product(size):
    design = Design()
    arms = [product_arm(design, r) for r in range(size // 81)]
    return design.text('par { ' + ' '.join(arms) + ' }', 12 * len(arms) + 1), design.size


SHAPES = (('one group after another', one_after_another), ('a matrix product', matrix_product), ('a tree of pars', tree_of_pars))


def best(words, folder):
    """The output, the status and the best time of a few runs."""
    times = []
    for _ in range(ROUNDS):
        begin = time.perf_counter()
        ran = subprocess.run(words, cwd=folder, capture_output=True, check=False)
        times.append(time.perf_counter() - begin)
    return ran, min(times)


def by_yosys(folder):
    """The seconds in which Yosys reads the text."""
    if not shutil.which('yosys'):
        return ''
    begin = time.perf_counter()
    try:
        subprocess.run(['yosys', '-q', '-p', 'read_verilog d.v'], cwd=folder, capture_output=True, timeout=60, check=True)
    except subprocess.TimeoutExpired:
        return ' yosys over 60 s'
    return f' yosys {time.perf_counter() - begin:7.3f} s'


def nets_of(text):
    """The nets over the instance tree: ports, wires and registers, and those of arrays as one."""
    own, parts = {}, {}
    for module, body in re.findall(r'^module (\w+)\((.*?)^endmodule', text, flags=re.M | re.S):
        own[module] = len(re.findall(r'^  (?:input wire|output wire|wire|reg) \[', body, flags=re.M))
        parts[module] = [part for part, _ in re.findall(r'^  (\w+) (\w+)\(\.', body, flags=re.M)]
    total = {}
    for module in own:
        total[module] = own[module] + sum(total[part] for part in parts[module])
    return total['main']


def main():
    if len(sys.argv) < 2:
        sys.exit(__doc__.strip())
    program = os.path.abspath(sys.argv[1])
    with tempfile.TemporaryDirectory() as folder:
        for name, shape in SHAPES:
            for wanted in SIZES:
                text, size = shape(wanted)
                with open(folder + '/d.futil', 'w', encoding='ascii') as file:
                    file.write(text)
                with open(folder + '/d.json', 'w', encoding='ascii') as file:
                    file.write('{}')
                made, seconds = best([program, 'compile', 'd.futil'], folder)
                assert made.returncode == 0, made.stderr
                with open(folder + '/d.v', 'wb') as file:
                    file.write(made.stdout)
                told = [subprocess.run([program, *words, 'd.json', '100000'], cwd=folder, capture_output=True, check=True).stdout
                        for words in (['interp', 'd.futil'], ['sim', 'd.v'])]
                assert told[0] == told[1], told
                count = len(made.stdout)
                line = f'{name:24} S {size:6} {seconds:7.3f} s {count:10,} bytes {count / size:6.0f}'
                line += f' nets {nets_of(made.stdout.decode()) / size:5.2f} cycles {json.loads(told[0])["cycles"]}'
                line += by_yosys(folder)
                print(line, flush=True)


if __name__ == '__main__':
    main()
