#!/usr/bin/env python3
"""Counts what a choice of `weave` costs: instructions by callgrind, which valgrind has to have.

    bench/weave.py PROGRAM

PROGRAM is the built calyx_cli. Each design is woven by 1,000 and by 3,000 choices, which end neither run; what a choice costs is the difference, divided by the
choices between. Beside it stands what a turn of `interp` costs on the first design, found in the same way.
"""
import os
import re
import subprocess
import sys
import tempfile

FEW, MANY = 1000, 3000
LIST = '0,1,2,3,5,7,11,13,60'
ROUNDS = 1000000


def design(registers, control):
    """A component with so many registers and a group for each, which writes it in two turns."""
    cells = ' '.join(f'r{k} = std_reg(32);' for k in range(registers))
    groups = ' '.join(f"group w{k} {{ r{k}.in = 32'd1; r{k}.write_en = 1'd1; w{k}[done] = r{k}.done; }}" for k in range(registers))
    return f'component main() -> () {{ cells {{ {cells} }} wires {{ {groups} }} control {{ {control} }} }}\n'


def loop(k):
    return f'repeat {ROUNDS} {{ w{k}; }}'


def halves(depth, k=0):
    """Pars of two seqs in one another, so deep, with a loop in each at the end."""
    if depth == 0:
        return loop(k)
    return f'par {{ seq {{ {halves(depth - 1, 2 * k)} }} seq {{ {halves(depth - 1, 2 * k + 1)} }} }}'


DESIGNS = [
    ('one `repeat`', design(1, loop(0))),
    ('60 more around it', design(1, 'repeat 1 { ' * 60 + loop(0) + ' }' * 60)),
    ('a `par` of 64 such', design(64, 'par { ' + ' '.join(loop(k) for k in range(64)) + ' }')),
    ('four `par`s of two `seq`s in one another', design(16, halves(4))),
]


def counted(words, folder):
    """The instructions of a run that needs more."""
    ran = subprocess.run(['valgrind', '--tool=callgrind', f'--callgrind-out-file={folder}/out', *words], cwd=folder, stdout=subprocess.DEVNULL, stderr=subprocess.PIPE, text=True, check=False)
    found = re.search(r'Collected : (\d+)', ran.stderr)
    assert ran.returncode == 3 and found, ran.stderr
    return int(found.group(1))


def a_step(program, command, text, more, folder):
    with open(f'{folder}/d.futil', 'w') as made:
        made.write(text)
    few, many = (counted([program, command, 'd.futil', 'd.json', str(steps), *more], folder) for steps in (FEW, MANY))
    return (many - few) / (MANY - FEW)


def main():
    if len(sys.argv) != 2 or sys.argv[1].startswith('-'):
        sys.exit(__doc__.strip())
    program = os.path.abspath(sys.argv[1])
    with tempfile.TemporaryDirectory() as folder:
        with open(f'{folder}/d.json', 'w') as made:
            made.write('{}\n')
        print(f'a turn of interp, {DESIGNS[0][0]}: {a_step(program, "interp", DESIGNS[0][1], [], folder):.0f}')
        for name, text in DESIGNS:
            print(f'a choice of weave, {name}: {a_step(program, "weave", text, [LIST], folder):.0f}', flush=True)


if __name__ == '__main__':
    main()
