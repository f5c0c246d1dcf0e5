#!/usr/bin/env python3
"""Compares the counts of `profile` with those of the text that `instrument` writes, by `sim` and by Icarus Verilog.

    bench/counts.py PROGRAM [CASES..]

PROGRAM is the built calyx_cli. The designs are those of examples/, and of each case of CASES (files as `bench/compile_cases.py` takes them) the one that a step profiles,
instruments or compiles with status 0, with a data file of it; crates/cx_cases/data/profiles.jsonl where none is named. The memory of the counts is loaded with words other than 0. `sim` of the
text has to end two cycles later for each count than `profile`, with the same words and, in the memory of the counts, the numbers of its lines in their order; Icarus Verilog
(`iverilog -g2005`) has to end in the same cycle with the same words. Where it is not installed, that is told. A design that is refused, or whose run does not end within 100,000 turns,
is left out. The last line is 'N passed, M failed'; the status is 1 where one failed.
"""
import concurrent.futures
import json
import os
import shutil
import sys
import tempfile

from compile_cases import content_of
from tools import BUDGET, by_icarus, examples, ran, unsigned

CASES = os.path.join(os.path.dirname(os.path.abspath(__file__)), '..', 'crates', 'cx_cases', 'data', 'profiles.jsonl')


def cases(paths):
    """The designs of cases that are profiled, instrumented or compiled, each with a data file."""
    for path in paths:
        with open(path, encoding='utf-8') as file:
            for case in map(json.loads, filter(str.strip, file)):
                data = next((name for name in case['files'] if name.endswith('.json')), None)
                for step in case['steps']:
                    if step['words'][:1] in (['profile'], ['instrument'], ['compile']) and step['status'] == 0 and data and step['words'][1] in case['files']:
                        yield case['name'], content_of(case['files'][step['words'][1]]), content_of(case['files'][data])
                        break


def with_counts(text, data):
    """The data with a memory for the counts, its name, and the width of each memory."""
    rows = [line.split(' ')[2:] for line in text.splitlines() if line.startswith('// external ')]
    name, _, width, count = rows[-1]
    held = json.loads(data)
    form = {'numeric_type': 'bitnum', 'is_signed': False, 'width': int(width)}
    held[name] = {'data': [7 * k + 5 for k in range(int(count))], 'format': form}
    return json.dumps(held).encode(), name, {row[0]: int(row[2]) for row in rows}


def wanted_of(told, name):
    """What the run of the text has to dump, by what `profile` told."""
    first, *lines = told.decode().splitlines()
    dump, counts = json.loads(first), [int(line.rsplit(' ', 1)[1]) for line in lines]
    return {'cycles': dump['cycles'] + 2 * len(counts), 'memories': dump['memories'] | {name: counts}}


def faults(program, name, design, data, with_icarus):
    """What was told otherwise; None of a design that is left out."""
    with tempfile.TemporaryDirectory(prefix='counts_') as folder:
        def put(file, content):
            with open(f'{folder}/{file}', 'wb') as to:
                to.write(content)

        put('d.futil', design)
        put('d.json', data)
        told = ran([program, 'profile', 'd.futil', 'd.json', BUDGET], folder)
        made = ran([program, 'instrument', 'd.futil'], folder)
        if told.returncode or made.returncode or b'\nactive ' not in told.stdout:
            return None
        text = made.stdout.decode()
        more, memory, widths = with_counts(text, data)
        put('d.v', made.stdout)
        put('e.json', more)
        wanted = wanted_of(told.stdout, memory)
        seen = ran([program, 'sim', 'd.v', 'e.json', BUDGET], folder)
        if seen.returncode or json.loads(seen.stdout) != wanted:
            return f'{name}: sim tells {(seen.stdout + seen.stderr)[:200]}'
        if with_icarus:
            cycle, words = by_icarus(folder, text, more, widths)
            if (cycle, words) != (wanted['cycles'], unsigned(wanted, more, widths)):
                return f'{name}: Icarus Verilog: cycle {cycle}, {words}'
    return ''


def main():
    if len(sys.argv) < 2:
        sys.exit(__doc__.strip())
    program, with_icarus = os.path.abspath(sys.argv[1]), bool(shutil.which('iverilog') and shutil.which('vvp'))
    if not with_icarus:
        print('iverilog is not there, and left out')
    designs = [*examples(), *cases(sys.argv[2:] or [CASES])]
    with concurrent.futures.ThreadPoolExecutor(os.cpu_count() or 1) as pool:
        told = [fault for fault in pool.map(lambda design: faults(program, *design, with_icarus), designs) if fault is not None]
    wrong = [fault for fault in told if fault]
    print(*wrong, f'{len(told) - len(wrong)} passed, {len(wrong)} failed', sep='\n')
    return 1 if wrong or not told else 0


if __name__ == '__main__':
    sys.exit(main())
