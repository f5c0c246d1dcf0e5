#!/usr/bin/env python3
"""Runs texts of the cases of `sim` that are valid for Icarus Verilog too by both, and compares the cycle and the words.

    bench/icarus.py PROGRAM

PROGRAM is the built calyx_cli; where `iverilog` or `vvp` is not installed (Debian's package iverilog), that is told and nothing is compared. The texts are read out of
crates/cx_cases/data/simulation.jsonl. Registers begin with 0, which Icarus Verilog is told. The last line is 'N passed, M failed'; the status is 1
where one failed, or there was no text.
"""
import json
import os
import re
import shutil
import subprocess
import sys
import tempfile

from sim import BENCH

HERE = os.path.dirname(os.path.abspath(__file__))


def texts():
    """The texts of modules without memories, and that with one, with the words of it."""
    with open(HERE + '/../crates/cx_cases/data/simulation.jsonl', encoding='utf-8') as file:
        named = {case['name']: case['files']['text'] for case in map(json.loads, file)}
    alone = [(name, named[name], []) for name in ('a counter to ten', 'registers change at once')]
    memory = named['an external memory']
    return alone + [('a memory', memory, [1, 2, 3, 4]), ('a memory of other words', memory, [250, 7, 0, 99])]


def by_sim(program, folder, text, words):
    held = {'t': {'data': words, 'format': {'numeric_type': 'bitnum', 'is_signed': False, 'width': 8}}} if words else {}
    with open(folder + '/v.v', 'w', encoding='ascii') as file:
        file.write(text)
    with open(folder + '/v.json', 'w', encoding='ascii') as file:
        json.dump(held, file)
    ran = subprocess.run([program, 'sim', folder + '/v.v', folder + '/v.json', '1000'], capture_output=True, check=True)
    told = json.loads(ran.stdout)
    return told['cycles'], told['memories'].get('t', [])


def by_icarus(folder, text, words):
    loads = ' '.join(f'dut.i.m[{k}] = {word};' for k, word in enumerate(words))
    dumps = ' '.join(f'$display("%0d", dut.i.m[{k}]);' for k in range(len(words)))
    zeros = re.sub(r'  reg (\[\d+:0\]) (\w+);', r'  reg \1 \2 = 0;', text)
    with open(folder + '/b.v', 'w', encoding='ascii') as file:
        file.write(zeros + BENCH.format(loads=loads, dumps=dumps))
    subprocess.run(['iverilog', '-g2005', '-s', 'bench', '-o', folder + '/b.vvp', folder + '/b.v'], check=True)
    ran = subprocess.run(['vvp', '-n', folder + '/b.vvp'], capture_output=True, check=True, text=True)
    cycle, *held = [int(line) for line in ran.stdout.split('\n') if line.strip().isdigit()]
    return cycle, held


def main():
    if len(sys.argv) < 2:
        sys.exit(__doc__.strip())
    if not shutil.which('iverilog') or not shutil.which('vvp'):
        print('skipped: iverilog is not installed')
        return 0
    program = os.path.abspath(sys.argv[1])
    passed, failed = 0, 0
    with tempfile.TemporaryDirectory() as folder:
        for name, text, words in texts():
            ours, theirs = by_sim(program, folder, text, words), by_icarus(folder, text, words)
            passed, failed = passed + (ours == theirs), failed + (ours != theirs)
            print(f'{name}: cycle {ours[0]}, words {ours[1]}' + ('' if ours == theirs else f'; by Icarus Verilog cycle {theirs[0]}, words {theirs[1]}'))
    print(f'{passed} passed, {failed} failed')
    return 1 if failed or not passed else 0


if __name__ == '__main__':
    sys.exit(main())
