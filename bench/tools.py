#!/usr/bin/env python3
"""Compiles designs, runs the texts by `sim` and by Icarus Verilog, and lets Verilator and Yosys read them.

    bench/tools.py PROGRAM [CASES..]

PROGRAM is the built calyx_cli. The designs are those of examples/, and of each case of CASES (files as `bench/compile_cases.py` takes them) the one
that a step compiles with status 0, with the data file that a later step hands to `sim` with status 0. `sim` has to write the line of `interp`, to the
byte. Icarus Verilog (`iverilog -g2005`) has to see `done` in the same cycle and the same words in the external memories; registers and arrays begin
with 0, which it is told. Verilator (`--lint-only`) and Yosys (`read_verilog; hierarchy -check; proc; check`) have to read the text without an error or
a warning, but for Verilator's on comparisons that are constant, and on circles of wires through what is never active together. A tool that is not
installed is left out, which is told, and so is a design that is refused or needs more than 100,000 turns. The last line is 'N passed, M failed';
the status is 1 where one failed.
"""
import concurrent.futures
import glob
import json
import os
import re
import shutil
import subprocess
import sys
import tempfile

from compile_cases import content_of
from sim import BENCH, zeros

EXAMPLES = os.path.join(os.path.dirname(os.path.abspath(__file__)), '..', 'examples')
BUDGET = '100000'
ALLOWED = ['-Wno-UNSIGNED', '-Wno-CMPCONST', '-Wno-UNOPTFLAT']
SECONDS = 120


def ran(words, folder):
    return subprocess.run(words, cwd=folder, capture_output=True, timeout=SECONDS, check=False)


def examples():
    for path in sorted(glob.glob(f'{EXAMPLES}/*.futil')):
        with open(path, 'rb') as design, open(path[: -len('.futil')] + '.json', 'rb') as data:
            yield os.path.basename(path), design.read(), data.read()


def cases(paths):
    """The designs of cases that compile and end, each with its data file."""
    for path in paths:
        with open(path, encoding='utf-8') as file:
            for case in map(json.loads, filter(str.strip, file)):
                compiled = {step['save']: step['words'][1] for step in case['steps']
                            if step['words'][:1] == ['compile'] and 'save' in step and step['status'] == 0}
                for step in case['steps']:
                    words = step['words']
                    if words[:1] == ['sim'] and step['status'] == 0 and compiled.get(words[1]) in case['files']:
                        yield case['name'], content_of(case['files'][compiled[words[1]]]), content_of(case['files'][words[2]])
                        break


def externals_of(text):
    """The name, the instance, the array and the count of words of each external memory, in the order of the text."""
    arrays = {}
    for module, body in re.findall(r'^module (\w+)\((.*?)^endmodule', text, flags=re.M | re.S):
        array = re.search(r'^  reg \[\d+:0\] (\w+) \[0:(\d+)\];', body, flags=re.M)
        if array:
            arrays[module] = array.group(1), int(array.group(2)) + 1
    main = text[text.index('module main('):]
    modules = {instance: module for module, instance in re.findall(r'^  (\w+) (\w+)\(', main, flags=re.M)}
    for line in re.findall(r'^// external (.*)$', text, flags=re.M):
        name, instance = line.split(' ')[:2]
        yield name, instance, *arrays[modules[instance]]


def flat(words):
    return [word for part in words for word in flat(part)] if isinstance(words, list) else [words]


def by_icarus(folder, text, data, widths):
    """The cycle in which `done` is 1, and the words of each external memory in it."""
    held = json.loads(data)
    loads, dumps, names = [], [], []
    for name, instance, array, count in externals_of(text):
        at = f'dut.{instance}.{array}'
        bits = widths[name]
        loads += [f"{at}[{k}] = {bits}'d{word % 2**bits};" for k, word in enumerate(flat(held[name]['data']))]
        dumps.append(f'for (k = 0; k < {count}; k = k + 1) $display("%0d", {at}[k]);')
        names.append((name, count))
    arrays = re.sub(r'^(  reg \[\d+:0\] (\w+) \[0:(\d+)\];)',
                    r'\1 integer cx_k; initial for (cx_k = 0; cx_k <= \3; cx_k = cx_k + 1) \2[cx_k] = 0;', zeros(text), flags=re.M)
    with open(folder + '/b.v', 'w', encoding='ascii') as file:
        file.write(arrays + BENCH.format(loads='#0 ' + ' '.join(loads) if loads else '', dumps=' '.join(dumps)))
    made = ran(['iverilog', '-g2005', '-Wall', '-s', 'bench', '-o', 'b.vvp', 'b.v'], folder)
    said = [line for line in (made.stdout + made.stderr).decode().splitlines() if 'timescale' not in line]
    if made.returncode or said:
        return None, said[:3]
    out = [int(line) for line in ran(['vvp', '-n', 'b.vvp'], folder).stdout.decode().split('\n') if line.strip().isdigit()]
    words, at = {}, 1
    for name, count in names:
        words[name], at = out[at:at + count], at + count
    return out[0], words


def unsigned(dump, data, widths):
    """The words of a dump as the memories hold them."""
    return {name: [word % 2**widths[name] for word in flat(words)] for name, words in dump['memories'].items()}


def faults(program, name, design, data, tools):
    """What a tool told otherwise; None of a design that is left out."""
    with tempfile.TemporaryDirectory(prefix='tools_') as folder:
        for file, content in (('d.futil', design), ('d.json', data)):
            with open(f'{folder}/{file}', 'wb') as to:
                to.write(content)
        wanted = ran([program, 'interp', 'd.futil', 'd.json', BUDGET], folder)
        if wanted.returncode in (2, 3):
            return None
        made = ran([program, 'compile', 'd.futil'], folder)
        if wanted.returncode or made.returncode:
            return f'{name}: interp {wanted.returncode}, compile {made.returncode}'
        with open(f'{folder}/d.v', 'wb') as to:
            to.write(made.stdout)
        if ran([program, 'sim', 'd.v', 'd.json', BUDGET], folder).stdout != wanted.stdout:
            return f'{name}: sim tells otherwise'
        dump, text = json.loads(wanted.stdout), made.stdout.decode()
        widths = {line.split(' ')[2]: int(line.split(' ')[4]) for line in text.splitlines() if line.startswith('// external ')}
        if 'iverilog' in tools:
            cycle, words = by_icarus(folder, text, data, widths)
            if (cycle, words) != (dump['cycles'], unsigned(dump, data, widths)):
                return f'{name}: Icarus Verilog: cycle {cycle}, {words}'
        readers = {'verilator': ['verilator', '--lint-only', *ALLOWED, '--top-module', 'main', 'd.v'],
                   'yosys': ['yosys', '-q', '-p', 'read_verilog d.v; hierarchy -check -top main; proc; check']}
        for tool, words in readers.items():
            if tool in tools:
                read = ran(words, folder)
                if read.returncode or read.stdout or read.stderr:
                    return f'{name}: {tool}: {(read.stdout + read.stderr).decode()[:300]}'
    return ''


def main():
    if len(sys.argv) < 2:
        sys.exit(__doc__.strip())
    program = os.path.abspath(sys.argv[1])
    tools = [tool for tool in ('iverilog', 'verilator', 'yosys') if shutil.which(tool)]
    for tool in {'iverilog', 'verilator', 'yosys'} - set(tools):
        print(f'{tool} is not there, and left out')
    designs = [*examples(), *cases(sys.argv[2:])]
    with concurrent.futures.ThreadPoolExecutor(os.cpu_count() or 1) as pool:
        told = [fault for fault in pool.map(lambda design: faults(program, *design, tools), designs) if fault is not None]
    wrong = [fault for fault in told if fault]
    print(*wrong, f'{len(told) - len(wrong)} passed, {len(wrong)} failed', sep='\n')
    return 1 if wrong or not told else 0


if __name__ == '__main__':
    sys.exit(main())
