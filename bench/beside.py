#!/usr/bin/env python3
"""Times the commands beside what else one would use, on the designs of examples/.

    bench/beside.py PROGRAM

PROGRAM is the built calyx_cli. Of each design: the turns; the best seconds of three of `interp`, of `sim` on the text of `compile`, of `vvp` on the same text and of the
program that `verilator --binary` makes of it, each from the start of the process to its end; then of `check`, of `compile`, and of `yosys -p read_verilog` on the text. All
that run a design have to print the same line. A tool that is not installed has a dash. The building by `iverilog` and `verilator` is not counted.
"""
import glob
import os
import shutil
import subprocess
import sys
import tempfile
import time

TOP = os.path.join(os.path.dirname(os.path.abspath(__file__)), '..')
TESTBENCH = os.path.join(TOP, 'tools', 'testbench.py')
ROUNDS = 3


def best(words, folder):
    """The output and the best time of a few runs."""
    times, out = [], b''
    for _ in range(ROUNDS):
        begin = time.perf_counter()
        out = subprocess.run(words, cwd=folder, capture_output=True, check=True).stdout
        times.append(time.perf_counter() - begin)
    return out, min(times)


def told(seconds):
    return '-' if seconds is None else f'{seconds:.3f}'


def last_line(out):
    """What a run prints, without what the tool says of its own."""
    return [line for line in out.splitlines() if line.startswith(b'{')]


def by_others(folder, wanted):
    """The seconds of `vvp` and of Verilator's program on the text d.v with the testbench b.v."""
    times = {}
    if shutil.which('iverilog'):
        subprocess.run(['iverilog', '-g2005', '-s', 'bench', '-o', 'b.vvp', 'b.v', 'd.v'], cwd=folder, check=True)
        out, times['vvp'] = best(['vvp', '-n', 'b.vvp'], folder)
        assert last_line(out) == last_line(wanted), out
    if shutil.which('verilator'):
        subprocess.run(['verilator', '--binary', '--timing', '-Wno-fatal', '-Wno-lint', '--top-module', 'bench', 'b.v', 'd.v'], cwd=folder, capture_output=True, check=True)
        out, times['verilator'] = best(['obj_dir/Vbench'], folder)
        assert last_line(out) == last_line(wanted), out
    return times


def row(program, path):
    with tempfile.TemporaryDirectory(prefix='beside_') as folder:
        shutil.copyfile(path, f'{folder}/d.futil')
        shutil.copyfile(path[: -len('.futil')] + '.json', f'{folder}/d.json')
        text, compiling = best([program, 'compile', 'd.futil'], folder)
        with open(f'{folder}/d.v', 'wb') as file:
            file.write(text)
        wanted, interp = best([program, 'interp', 'd.futil', 'd.json', '1000000'], folder)
        simulated, sim = best([program, 'sim', 'd.v', 'd.json', '1000000'], folder)
        assert simulated == wanted, simulated
        with open(f'{folder}/b.v', 'wb') as file:
            file.write(subprocess.run([TESTBENCH, 'd.v', 'd.json'], cwd=folder, capture_output=True, check=True).stdout)
        others = by_others(folder, wanted)
        _, checking = best([program, 'check', 'd.futil'], folder)
        yosys = best(['yosys', '-q', '-p', 'read_verilog d.v'], folder)[1] if shutil.which('yosys') else None
    turns = wanted.split(b'"cycles":')[1].split(b',')[0].decode()
    times = [interp, sim, others.get('vvp'), others.get('verilator'), checking, compiling, yosys]
    return f'| `{os.path.basename(path)[:-6]}` | {turns} | ' + ' | '.join(map(told, times)) + ' |'


def main():
    if len(sys.argv) < 2:
        sys.exit(__doc__.strip())
    program = os.path.abspath(sys.argv[1])
    print('| Design | Turns | `interp` | `sim` | `vvp` | Verilator | `check` | `compile` | `yosys read_verilog` |', '|---|---|---|---|---|---|---|---|---|', sep='\n')
    for path in sorted(glob.glob(f'{TOP}/examples/*.futil')):
        print(row(program, path), flush=True)


if __name__ == '__main__':
    main()
