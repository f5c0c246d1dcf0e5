"""Runs what `compile` makes of a design by `sim`, Icarus Verilog or Verilator, and compares it with what `interp` wrote."""
import os
import shutil
import subprocess
import sys
import tempfile

import program

TOOLS = {'icarus': ('iverilog', 'vvp'), 'verilator': ('verilator',)}
BENCH = os.path.join(os.path.dirname(os.path.abspath(__file__)), 'testbench.py')


def compare(names, path, data_path, turns, dump):
    """The status: 0 where all that were asked for write the same line."""
    if not names:
        return 0
    with tempfile.TemporaryDirectory(prefix='calyx_') as folder:
        status, text, told = program.run('compile', path)
        if status:
            sys.stderr.write(told)
            return status
        with open(f'{folder}/text.v', 'wb') as file:
            file.write(text)
        found = [one(name, folder, data_path, turns, dump) for name in names]
    return 0 if all(found) else 1


def one(name, folder, data_path, turns, dump):
    """Whether a simulator writes the same line; a line on standard error says so."""
    missing = [tool for tool in TOOLS.get(name, ()) if not shutil.which(tool)]
    if missing:
        print(f'{name}: {missing[0]} is not installed', file=sys.stderr)
        return False
    out, why = {'sim': by_sim, 'icarus': by_icarus, 'verilator': by_verilator}[name](folder, data_path, turns)
    if out == dump:
        print(f'{name}: the same line', file=sys.stderr)
        return True
    print(f'{name}: another line: {(out or why.encode()).decode("utf-8", "replace").strip()}', file=sys.stderr)
    return False


def by_sim(folder, data_path, turns):
    _, out, told = program.run('sim', f'{folder}/text.v', data_path, turns)
    return out, told


def run(words, folder):
    ran = subprocess.run(words, cwd=folder, stdin=subprocess.DEVNULL, capture_output=True, check=False)
    return ran.returncode, ran.stdout, ran.stderr.decode('utf-8', 'replace')


def write_bench(folder, data_path, turns):
    status, out, told = run([sys.executable, BENCH, f'{folder}/text.v', os.path.abspath(data_path), turns], folder)
    with open(f'{folder}/bench.v', 'wb') as file:
        file.write(out)
    return told if status else ''


def by_icarus(folder, data_path, turns):
    told = write_bench(folder, data_path, turns)
    if told:
        return b'', told
    status, _, told = run(['iverilog', '-g2005', '-s', 'bench', '-o', 'run.vvp', 'bench.v', 'text.v'], folder)
    if status:
        return b'', told
    _, out, told = run(['vvp', '-n', 'run.vvp'], folder)
    return out, told


def by_verilator(folder, data_path, turns):
    told = write_bench(folder, data_path, turns)
    if told:
        return b'', told
    status, _, told = run(['verilator', '--binary', '--timing', '-Wno-fatal', '--top-module', 'bench', 'bench.v', 'text.v'], folder)
    if status:
        return b'', told
    _, out, told = run(['obj_dir/Vbench'], folder)
    # Verilator tells of $finish in a line more.
    return b''.join(line for line in out.splitlines(keepends=True) if not line.startswith(b'- ')), told
