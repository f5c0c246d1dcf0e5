#!/usr/bin/env python3
"""What `promote` and `share` make of the designs of examples/: turns, nets and bytes.

    bench/rewritings.py PROGRAM [FILE.futil FILE.json ..]

PROGRAM is the built calyx_cli. Each design is run as it stands, promoted, shared, and both in either order; each text is compiled and simulated, and both
runs have to leave the words of the first. Prints the table of docs/REWRITINGS.md: turns, then nets over the instance tree and kilobytes of the text of `compile`,
a dash where that is too large. The last line is 'N passed, M failed'; the status is 1 where one failed.
"""
import glob
import json
import os
import subprocess
import sys
import tempfile

sys.path.insert(0, os.path.dirname(os.path.abspath(__file__)))

from compile import nets_of

EXAMPLES = os.path.join(os.path.dirname(os.path.abspath(__file__)), '..', 'examples')
WAYS = ((), ('promote',), ('share',), ('promote', 'share'), ('share', 'promote'))
TURNS = '100000000'


class Failed(Exception):
    """A step told otherwise than it should."""


def written(program, folder, words, to=None):
    """What a command writes, which is kept in a file."""
    ran = subprocess.run([program, *words], cwd=folder, capture_output=True, check=False)
    if ran.returncode:
        raise Failed(f'{" ".join(words)}: {ran.stderr.decode().strip()}')
    if to:
        with open(os.path.join(folder, to), 'wb') as file:
            file.write(ran.stdout)
    return ran.stdout


def compiled(program, folder, dump):
    """The nets and the bytes of the text of `compile`, whose run has to write this line; none where it is too large."""
    try:
        text = written(program, folder, ('compile', 'd.futil'), 'd.v')
    except Failed as why:
        if 'too-large' in str(why):
            return None
        raise
    if written(program, folder, ('sim', 'd.v', 'd.json', TURNS)) != dump:
        raise Failed('sim writes another line than interp')
    return nets_of(text.decode()), len(text)


def measured(program, text, data, way):
    """The run of a design that was rewritten in these ways: its turns and memories, and what its Verilog takes."""
    with tempfile.TemporaryDirectory() as folder:
        for name, content in (('d.futil', text), ('d.json', data)):
            with open(os.path.join(folder, name), 'wb') as file:
                file.write(content)
        for command in way:
            written(program, folder, (command, 'd.futil'), 'd.futil')
        dump = written(program, folder, ('interp', 'd.futil', 'd.json', TURNS))
        told = json.loads(dump)
        return told['cycles'], told['memories'], compiled(program, folder, dump)


def row(program, path, data_path):
    """The line of a design, or why there is none."""
    with open(path, 'rb') as file, open(data_path, 'rb') as data_file:
        text, data = file.read(), data_file.read()
    runs = [measured(program, text, data, way) for way in WAYS]
    for way, (turns, memories, _) in zip(WAYS, runs):
        if memories != runs[0][1] or turns > runs[0][0]:
            raise Failed(f'{" then ".join(way)}: other words, or more turns')
    turns = [str(run[0]) for run in runs]
    sizes = [f'{run[2][0]}, {run[2][1] / 1000:.1f}' if run[2] else '-' for run in runs]
    return ' | '.join([f'| `{os.path.basename(path)[: -len(".futil")]}`', *turns, *sizes]) + ' |'


def main():
    if len(sys.argv) < 2 or len(sys.argv) % 2:
        sys.exit(__doc__.strip())
    program = os.path.abspath(sys.argv[1])
    pairs = list(zip(sys.argv[2::2], sys.argv[3::2])) or [(path, path[: -len('.futil')] + '.json') for path in sorted(glob.glob(f'{EXAMPLES}/*.futil'))]
    failed = 0
    for path, data_path in pairs:
        try:
            print(row(program, path, data_path))
        except Failed as why:
            failed += 1
            print(f'{path}: {why}')
    print(f'{len(pairs) - failed} passed, {failed} failed')
    return 1 if failed or not pairs else 0


if __name__ == '__main__':
    sys.exit(main())
