#!/usr/bin/env python3
"""Runs the commands of the pages of docs/ that are named below, and compares what they print with the pages; and the tests of tools/.

    bench/pages.py PROGRAM [--write]

PROGRAM is the built calyx_cli. A block that is fenced as `file NAME` is written to that file, one that is fenced as `console` has commands behind `$ `, each
followed by what it prints, on either stream. Those of a page run in one new folder, with the program and tools/ on the path and YARNCHERT as this repository. A command
with a tool that is not installed is left out, which is told. With --write the pages get what the commands print. Then the tests of tools/tests run, in which
the table of forms of docs/LANGUAGE.md is tried; each counts as one.
"""
import os
import re
import shutil
import subprocess
import sys
import tempfile

TOP = os.path.abspath(os.path.join(os.path.dirname(os.path.abspath(__file__)), '..'))
PAGES = [os.path.join(TOP, 'docs', name) for name in
         ('COMMANDS.md', 'TUTORIAL.md', 'VERILOG.md', 'MEANING.md', 'LANGUAGE.md', 'REWRITINGS.md', 'PROFILING.md', 'STATIC.md')]
TOOLS = ('iverilog', 'vvp', 'verilator', 'yosys')


def ran(command, folder, program):
    kept = {**os.environ, 'PATH': ':'.join([os.path.dirname(program), os.path.join(TOP, 'tools'), os.environ['PATH']]), 'YARNCHERT': TOP, 'CALYX_CLI': program}
    made = subprocess.run(['bash', '-c', command], cwd=folder, env=kept, stdout=subprocess.PIPE, stderr=subprocess.STDOUT, check=False)
    return made.stdout.decode()


def steps(block):
    """The commands of a block, each with what it printed."""
    for part in re.split(r'^\$ ', block, flags=re.M)[1:]:
        command, _, printed = part.partition('\n')
        yield command, printed


def lacking(command):
    return [tool for tool in TOOLS if re.search(rf'\b{tool}\b', command) and not shutil.which(tool)]


def told(block, folder, program, wrong):
    """The block as the commands print it now."""
    made = ''
    for command, printed in steps(block):
        if lacking(command):
            print(f'left out, for want of {lacking(command)[0]}: {command}')
            now = printed
        else:
            now = ran(command, folder, program)
        if now != printed:
            wrong.append(f'$ {command}\n{now}')
        made += f'$ {command}\n{now}'
    return made


def follow(path, program, writes):
    """How many commands a page has, and those that print something else."""
    with open(path, encoding='utf-8') as file:
        blocks = re.split(r'(^```.*?^```$)', file.read(), flags=re.M | re.S)
    wrong = []
    with tempfile.TemporaryDirectory(prefix='pages_') as folder:
        for number, block in enumerate(blocks):
            named = re.match(r'```file (\S+)\n(.*)```$', block, flags=re.S)
            typed = re.match(r'```console\n(.*)```$', block, flags=re.S)
            if named:
                with open(os.path.join(folder, named.group(1)), 'w', encoding='utf-8') as to:
                    to.write(named.group(2))
            elif typed:
                blocks[number] = '```console\n' + told(typed.group(1), folder, program, wrong) + '```'
    if writes:
        with open(path, 'w', encoding='utf-8') as file:
            file.write(''.join(blocks))
    return sum(block.count('\n$ ') for block in blocks if block.startswith('```console')), wrong


def tests(program):
    """How many tests of the tools there are, and what is told of those that failed."""
    made = subprocess.run([sys.executable, '-m', 'unittest', 'discover', '-s', os.path.join(TOP, 'tools', 'tests'), '-p', 'test_*.py'],
                          env={**os.environ, 'CALYX_CLI': program}, capture_output=True, check=False)
    told = made.stderr.decode('utf-8', 'replace')
    count = re.search(r'^Ran (\d+) tests?', told, flags=re.M)
    failed = re.findall(r'^(?:FAIL|ERROR): .*', told, flags=re.M)
    if failed or made.returncode:
        print(told)
    return int(count.group(1)) if count else 0, failed or ([told] if made.returncode else [])


def main():
    if len(sys.argv) < 2:
        sys.exit(__doc__.strip())
    program, writes = os.path.abspath(sys.argv[1]), sys.argv[2:] == ['--write']
    commands, wrong = 0, []
    for path in PAGES:
        count, others = follow(path, program, writes)
        commands, wrong = commands + count, wrong + others
    if wrong and not writes:
        print(*wrong, sep='\n')
    count, others = tests(program)
    commands, wrong = commands + count, wrong + others
    print(f'{commands - len(wrong)} passed, {len(wrong)} failed')
    return 1 if wrong or not commands else 0


if __name__ == '__main__':
    sys.exit(main())
