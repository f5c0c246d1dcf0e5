#!/usr/bin/env python3
"""Runs cases by two builds of the program, and compares what they tell.

    bench/builds.py PROGRAM OTHER [CASES..]  [--mutants N] [--jobs N]

PROGRAM and OTHER are two built calyx_cli. CASES are files of cases as `compile_cases.py` reads them, all of crates/cx_cases/data where none is named. Each step is run by both, and has to end with the
same status and the same two outputs. Each Verilog text that a case simulates is then changed at random in N ways (40, by a fixed seed): bytes and lines go, come
twice or change places, numbers become others; each has to get the same answer of `sim` by both. The last line is 'N same, M differ'; the status is 1
where one differs or none was run.
"""
import argparse
import concurrent.futures
import os
import random
import re
import shutil
import subprocess
import sys
import tempfile

from compile_cases import cases_of, content_of, words_of

SECONDS = 60
MOST_BYTES = 65536


def told(program, words, folder):
    """The status and the outputs of a run."""
    try:
        ran = subprocess.run([program, *words], cwd=folder, stdin=subprocess.DEVNULL, capture_output=True, timeout=SECONDS, check=False)
    except subprocess.TimeoutExpired:
        return 'no end'
    return ran.returncode, ran.stdout, ran.stderr


def changed(text, dice):
    """A text that differs from this one in a few places."""
    for _ in range(dice.choice((1, 1, 2, 3))):
        text = dice.choice((without_bytes, with_twice, with_lines_swapped, with_other_number))(text, dice)
    return text


def without_bytes(text, dice):
    at = dice.randrange(len(text) + 1)
    return text[:at] + text[at + dice.choice((1, 2, 8)):]


def with_twice(text, dice):
    at = dice.randrange(len(text) + 1)
    end = at + dice.choice((1, 4, 40))
    return text[:end] + text[at:end] + text[end:]


def with_lines_swapped(text, dice):
    lines = text.split(b'\n')
    one, other = dice.randrange(len(lines)), dice.randrange(len(lines))
    lines[one], lines[other] = lines[other], lines[one]
    return b'\n'.join(lines)


def with_other_number(text, dice):
    numbers = list(re.finditer(rb'\d+', text))
    if not numbers:
        return text
    number = dice.choice(numbers)
    return text[:number.start()] + str(dice.choice((0, 1, 2, 8, 31, 127, 128, 2**32, 2**64))).encode() + text[number.end():]


def mutants_differ(programs, words, folder, dice, mutants):
    """How many changed texts get the same answer, and the words of those that do not."""
    path = os.path.join(folder, words[1])
    if not os.path.isfile(path) or os.path.getsize(path) > MOST_BYTES:
        return 0, []
    with open(path, 'rb') as file:
        text = file.read()
    differing = []
    for number in range(mutants):
        with open(os.path.join(folder, 'changed.v'), 'wb') as file:
            file.write(changed(text, dice))
        one, other = (told(program, ['sim', 'changed.v', *words[2:]], folder) for program in programs)
        if one != other:
            kept = tempfile.NamedTemporaryFile(prefix='differs_', suffix='.v', delete=False)
            shutil.copyfile(os.path.join(folder, 'changed.v'), kept.name)
            differing.append(f'sim {kept.name} {" ".join(words[2:])} (change {number}): {one!r:.200} {other!r:.200}')
    return mutants - len(differing), differing


def compared(programs, case, mutants):
    """How many runs of a case tell the same, and the words of those that do not."""
    same, differing, dice = 0, [], random.Random(case['name'])
    with tempfile.TemporaryDirectory(prefix='builds_') as folder:
        for name, content in case['files'].items():
            with open(os.path.join(folder, name), 'wb') as file:
                file.write(content_of(content))
        for step in case['steps']:
            words = words_of(step)
            one, other = (told(program, words, folder) for program in programs)
            if one == other:
                same += 1
            else:
                differing.append(f'{" ".join(words)}: {one!r:.200} {other!r:.200}')
            if 'save' in step:
                with open(os.path.join(folder, step['save']), 'wb') as file:
                    file.write(one[1] if one != 'no end' else b'')
            if words[:1] == ['sim'] and len(words) > 2:
                more, others = mutants_differ(programs, words, folder, dice, mutants)
                same, differing = same + more, differing + others
    return same, differing


def main():
    parser = argparse.ArgumentParser(description='Compares two builds over cases.')
    parser.add_argument('program')
    parser.add_argument('other')
    parser.add_argument('cases', nargs='*')
    parser.add_argument('--mutants', type=int, default=40)
    parser.add_argument('--jobs', type=int, default=os.cpu_count() or 1)
    options = parser.parse_args()
    programs = [os.path.abspath(options.program), os.path.abspath(options.other)]
    cases = list(cases_of(options.cases))
    same = differ = 0
    with concurrent.futures.ThreadPoolExecutor(options.jobs) as pool:
        for case, (well, differing) in zip(cases, pool.map(lambda case: compared(programs, case, options.mutants), cases)):
            same, differ = same + well, differ + len(differing)
            for text in differing:
                print(f'{case["name"]}: {text}', flush=True)
    print(f'{same} same, {differ} differ')
    return 0 if same and not differ else 1


if __name__ == '__main__':
    sys.exit(main())
