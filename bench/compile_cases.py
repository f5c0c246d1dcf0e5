#!/usr/bin/env python3
"""Runs cases in which `compile` or `instrument` is called, and compares what is told.

    bench/compile_cases.py PROGRAM [CASES..]

PROGRAM is the built calyx_cli (or a command of several words in one argument). CASES are files with a case on each line (crates/cx_cases/README.md tells the
form), all of crates/cx_cases/data where none is named. The files of a case are put into a folder of its own, where each step runs; `save` names the file that takes
standard output. Cases in which the outside fails or a file is cut are left out.

Of each text that they write the names are looked at too: but for `main`, `clk`, `reset`, `go` and `done`, each begins with `cx_`.
Where `iverilog` is installed the text has to be read by it without a word (`-g2005 -Wall -t null`).
The last line is 'N passed, M failed'; the status is 1 where one failed or none was run.
"""
import argparse
import concurrent.futures
import glob
import json
import os
import re
import shlex
import shutil
import subprocess
import sys
import tempfile

DATA = os.path.join(os.path.dirname(os.path.abspath(__file__)), '..', 'crates', 'cx_cases', 'data', '*.jsonl')
IN_MEMORY = {'reads', 'writes', 'lines', 'cut'}
KEYWORDS = set('module input output wire reg assign always posedge begin end if else endmodule'.split())
OWN = {'main', 'clk', 'reset', 'go', 'done'}
SECONDS = 60
WRITERS = ('compile', 'instrument')


def content_of(value):
    """A text, `{"repeat", "times"}`, with or without `"number"`, `{"latin1"}`, or a list of these."""
    if isinstance(value, list):
        return b''.join(content_of(part) for part in value)
    if isinstance(value, str):
        return value.encode()
    if 'latin1' in value:
        return value['latin1'].encode('latin-1')
    if 'number' not in value:
        return content_of(value['repeat']) * value['times']
    return ''.join(value['repeat'].replace(value['number'], str(n)) for n in range(value['times'])).encode()


def words_of(step):
    """The words of a step."""
    return [content_of(word).decode() for word in step['words']]


def foreign_names(text):
    """The names of a text that begin otherwise than they should. Comments and literals are left out."""
    lines = [line for line in text.decode().splitlines() if not line.startswith('//')]
    words = set(re.findall(r"(?<![\w'])[A-Za-z_]\w*", '\n'.join(lines)))
    return sorted(word for word in words - KEYWORDS - OWN if not word.startswith('cx_'))


def complaints(path):
    """What Icarus Verilog says of a text."""
    if not shutil.which('iverilog'):
        return ''
    ran = subprocess.run(['iverilog', '-g2005', '-Wall', '-t', 'null', path], capture_output=True, text=True, check=False)
    return ran.stdout + ran.stderr


def faults_of_text(text, folder):
    """What is wrong with a text that was written."""
    foreign = foreign_names(text)
    if foreign:
        return f'names {" ".join(foreign[:5])}'
    path = os.path.join(folder, 'compiled.v')
    with open(path, 'wb') as file:
        file.write(text)
    return complaints(path)


def fault_of_step(program, step, folder):
    """What one run told otherwise, or an empty text."""
    try:
        ran = subprocess.run(program + words_of(step), cwd=folder, stdin=subprocess.DEVNULL, capture_output=True, timeout=SECONDS, check=False)
    except subprocess.TimeoutExpired:
        return f'no end within {SECONDS} seconds'
    if 'save' in step:
        with open(os.path.join(folder, step['save']), 'wb') as file:
            file.write(ran.stdout)
    statuses = step['status'] if isinstance(step['status'], list) else [step['status']]
    if ran.returncode not in statuses:
        return f'status {ran.returncode}, {ran.stderr[:200]!r}'
    for key, got in (('stdout', ran.stdout), ('stderr', ran.stderr)):
        if key in step and got != content_of(step[key]):
            return f'{key} {got[:200]!r}'
    if step['words'][:1] and step['words'][0] in WRITERS and ran.returncode == 0:
        return faults_of_text(ran.stdout, folder)
    return ''


def fault_of_case(program, case):
    """What the first step that told otherwise told."""
    with tempfile.TemporaryDirectory(prefix='compile_case_') as folder:
        for name, content in case['files'].items():
            with open(os.path.join(folder, name), 'wb') as file:
                file.write(content_of(content))
        for step in case['steps']:
            fault = fault_of_step(program, step, folder)
            if fault:
                return f'{" ".join(words_of(step))}: {fault}'
    return ''


def cases_of(paths):
    """The cases of files, of all of the repository where none is named, but for those that want an outside in memory."""
    for path in paths or sorted(glob.glob(DATA)):
        with open(path, encoding='utf-8') as file:
            for case in map(json.loads, filter(str.strip, file)):
                if not any(IN_MEMORY & set(step) for step in case['steps']):
                    yield case


def main():
    parser = argparse.ArgumentParser(description='Runs cases in which compile or instrument is called.')
    parser.add_argument('program')
    parser.add_argument('cases', nargs='*')
    parser.add_argument('--jobs', type=int, default=os.cpu_count() or 1)
    options = parser.parse_args()
    program = [os.path.abspath(word) if os.path.exists(word) else word for word in shlex.split(options.program)]
    cases = [case for case in cases_of(options.cases) if any(step['words'][:1] and step['words'][0] in WRITERS for step in case['steps'])]
    failed = 0
    with concurrent.futures.ThreadPoolExecutor(options.jobs) as pool:
        for case, fault in zip(cases, pool.map(lambda case: fault_of_case(program, case), cases)):
            if fault:
                failed += 1
                print(f'{case["name"]}: {fault}', flush=True)
    print(f'{len(cases) - failed} passed, {failed} failed')
    return 0 if cases and not failed else 1


if __name__ == '__main__':
    sys.exit(main())
