#!/usr/bin/env python3
"""Times `share` beside `check` on designs with many cells of one kind, and tells how the time grows with the text.

    bench/share.py PROGRAM

PROGRAM is the built calyx_cli. Each shape is made in two sizes, the second with 16 times as many cells. Printed are the bytes of the text, the user seconds of
`share` and of `check` alone, the least of five runs, and at the second size how many times as fast as the text the time of `share` has grown. With valgrind installed the
growth is told by instructions, which other work on the machine leaves as they are.
"""
import os
import re
import resource
import shutil
import subprocess
import sys
import tempfile

ROUNDS = 5


def design(cells, wires, control):
    return f'component main() -> () {{\n  cells {{\n{cells}  }}\n  wires {{\n{wires}  }}\n  control {{ {control} }}\n}}\n'


def adds(group, adder, register):
    return (f"    group {group} {{ {adder}.left = {register}.out; {adder}.right = 32'd5; {register}.in = {adder}.out; {register}.write_en = 1'd1; "
            f"{group}[done] = {register}.done; }}\n")


def one_after_another(n):
    """None meets another: one is kept."""
    cells = ''.join(f'    r{k} = std_reg(32);\n' for k in range(16)) + ''.join(f'    a{k} = std_add(32);\n' for k in range(n))
    return design(cells, ''.join(adds(f'g{k}', f'a{k}', f'r{k % 16}') for k in range(n)), 'seq { ' + ' '.join(f'g{k};' for k in range(n)) + ' }')


def beside_each_other(n):
    """All meet by the arms of a `par`: all are kept."""
    cells = ''.join(f'    r{k} = std_reg(32);\n    a{k} = std_add(32);\n' for k in range(n))
    return design(cells, ''.join(adds(f'g{k}', f'a{k}', f'r{k}') for k in range(n)), 'par { ' + ' '.join(f'g{k};' for k in range(n)) + ' }')


def in_one_group(n):
    """All meet by one group: all are kept."""
    cells = '    r = std_reg(32);\n' + ''.join(f'    a{k} = std_add(32);\n' for k in range(n))
    wires = ''.join(f"      a{k}.left = r.out; a{k}.right = 32'd1;\n" for k in range(n))
    return design(cells, f"    group g {{\n{wires}      r.in = a0.out; r.write_en = 1'd1; g[done] = r.done;\n    }}\n", 'g;')


SHAPES = (('a `seq` of groups with an adder each', one_after_another, 250), ('a `par` of groups with an adder each', beside_each_other, 125),
          ('one group with all adders', in_one_group, 250))


def seconds(words):
    """The least user seconds of some runs."""
    found = []
    for _ in range(ROUNDS):
        before = resource.getrusage(resource.RUSAGE_CHILDREN).ru_utime
        if subprocess.run(words, stdout=subprocess.DEVNULL, check=False).returncode:
            sys.exit(f'{" ".join(words)} ended with another status than 0')
        found.append(resource.getrusage(resource.RUSAGE_CHILDREN).ru_utime - before)
    return min(found)


def instructions(words, folder):
    ran = subprocess.run(['valgrind', '--tool=callgrind', f'--callgrind-out-file={folder}/out', *words], stdout=subprocess.DEVNULL, stderr=subprocess.PIPE, text=True, check=False)
    found = re.search(r'Collected : (\d+)', ran.stderr)
    return int(found.group(1)) if found else None


def main():
    if len(sys.argv) != 2:
        sys.exit(__doc__.strip())
    program, counts = os.path.abspath(sys.argv[1]), shutil.which('valgrind')
    with tempfile.TemporaryDirectory(prefix='share_') as folder:
        path = os.path.join(folder, 'design')
        for name, make, cells in SHAPES:
            before = None
            for n in (cells, 16 * cells):
                text = make(n)
                with open(path, 'w', encoding='ascii') as to:
                    to.write(text)
                words = [program, 'share', path]
                took, cost = seconds(words), instructions(words, folder) if counts else None
                grown = ''
                if before:
                    by = (cost / before[2]) if cost and before[2] else took / max(before[1], 0.001)
                    grown = f'; grows {by / (len(text) / before[0]):.2f} times as fast as the text, by {"instructions" if cost else "seconds"}'
                print(f'{name}, {n} adders: {len(text)} bytes, share {took:.3f} s, check {seconds([program, "check", path]):.3f} s{grown}', flush=True)
                before = len(text), took, cost


if __name__ == '__main__':
    main()
