#!/usr/bin/env python3
"""Runs the designs of examples/ by `check` and `interp`, and compares what is told.

    bench/examples.py PROGRAM

PROGRAM is the built calyx_cli. Each design has to be accepted; a run whose budget just suffices has to write the bytes of its NAME.dump, and
one with a turn less has to tell that it needs more. The last line is 'N passed, M failed'; the status is 1 where one failed.
"""
import glob
import json
import os
import subprocess
import sys

EXAMPLES = os.path.join(os.path.dirname(os.path.abspath(__file__)), '..', 'examples')


def told(program, *words):
    """The status, the output and the line on standard error."""
    ran = subprocess.run([program, *words], cwd=EXAMPLES, capture_output=True, check=False)
    return ran.returncode, ran.stdout, ran.stderr


def faults(program, name):
    """The runs that told something else than they should."""
    with open(f'{EXAMPLES}/{name}.dump', 'rb') as file:
        dump = file.read()
    turns = json.loads(dump)['cycles']
    run = ('interp', f'{name}.futil', f'{name}.json')
    wanted = {
        ('check', f'{name}.futil'): (0, b'accepted\n', b''),
        (*run, str(turns)): (0, dump, b''),
        (*run, str(turns - 1)): (3, b'', f'more {turns - 1}\n'.encode()),
    }
    return [words for words, answer in wanted.items() if told(program, *words) != answer]


def main():
    if len(sys.argv) < 2:
        sys.exit(__doc__.strip())
    program = os.path.abspath(sys.argv[1])
    names = sorted(os.path.basename(path)[: -len('.futil')] for path in glob.glob(f'{EXAMPLES}/*.futil'))
    failed = 0
    for name in names:
        wrong = faults(program, name)
        for words in wrong:
            print(f'{" ".join(words)}: told otherwise')
        failed += bool(wrong)
    print(f'{len(names) - failed} passed, {failed} failed')
    return 1 if failed or not names else 0


if __name__ == '__main__':
    sys.exit(main())
