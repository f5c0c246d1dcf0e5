#!/usr/bin/env python3
"""Times `profile` beside `interp` on the runs of bench/interp.py.

    bench/profile.py PROGRAM

PROGRAM is the built calyx_cli. The first line that `profile` writes has to be the one of `interp`, and there has to be a line for each group that is no comb group.
Printed are the user seconds of both, the least of five runs taken in turn, without those of a run that may take no turn, and how many times as long `profile` takes;
runs of less than a twentieth of a second are too short for that.
"""
import os
import re
import resource
import subprocess
import sys
import tempfile

import interp as runs

ROUNDS = 5


def user(words, status):
    """What a command writes, and its user seconds."""
    before = resource.getrusage(resource.RUSAGE_CHILDREN).ru_utime
    ran = subprocess.run(words, capture_output=True, check=False)
    assert ran.returncode == status, ran
    return ran.stdout, resource.getrusage(resource.RUSAGE_CHILDREN).ru_utime - before


def seconds(program, folder, shape):
    """The user seconds of `interp` and of `profile`."""
    files = runs.written(folder, shape)
    calls = [[program, command, *files] for command in ('interp', 'profile')]
    took, idle = [[], []], [[], []]
    for _ in range(ROUNDS):
        told = []
        for at, call in enumerate(calls):
            out, time = user([*call, str(runs.BUDGET)], 0)
            told.append(out)
            took[at].append(time)
            idle[at].append(user([*call, '0'], 3)[1])
        line, *active = told[1].splitlines()
        assert line + b'\n' == told[0], line[:200]
        assert len(active) == len(re.findall(r'(?<!comb )group \w+ ', shape.text)), active[:3]
    return [min(took[at]) - min(idle[at]) for at in range(2)]


def main():
    if len(sys.argv) < 2:
        sys.exit(__doc__.strip())
    program = os.path.abspath(sys.argv[1])
    with tempfile.TemporaryDirectory() as folder:
        for shape in runs.shapes():
            alone, counted = seconds(program, folder, shape)
            times = f'{counted / alone:5.2f} times' if alone > 0.05 else ''
            print(f'{shape.name:50} interp {alone:8.3f} s  profile {counted:8.3f} s  {times}', flush=True)


if __name__ == '__main__':
    main()
