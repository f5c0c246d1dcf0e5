#!/usr/bin/env python3
"""Times the data file and the dump against Python's json module, on files of 1, 4 and 16 MiB of numbers.

    bench/data.py PROGRAM

PROGRAM is the built calyx_cli. The design has one memory and one group of two turns. With a budget of 1 the program loads
the data and writes no dump; with 2 it writes one, and what it takes more is the dump. Each time is the best of three, in
seconds. Python's times are those of json.load and json.dump alone, without the start of the interpreter.
"""
import io
import json
import os
import subprocess
import sys
import tempfile
import time

ROUNDS = 3
DESIGN = """component main() -> () {{
cells {{ @external mem = std_mem_d1(32, {words}, 32); }}
wires {{ group g {{ mem.addr0 = 32'd0; mem.write_data = 32'd1; mem.write_en = 1'd1; g[done] = mem.done; }} }}
control {{ seq {{ g; }} }} }}
"""


def best(task):
    """The shortest of some runs."""
    times = []
    for _ in range(ROUNDS):
        begin = time.perf_counter()
        task()
        times.append(time.perf_counter() - begin)
    return min(times)


def data_of(words):
    """A data file of three-digit numbers."""
    numbers = ','.join(str(100 + n % 900) for n in range(words))
    return ('{"mem":{"data":[' + numbers
            + '],"format":{"numeric_type":"bitnum","is_signed":false,"width":32}}}')


def run(program, folder, budget):
    command = [program, 'interp', 'd.futil', 'd.json', str(budget)]
    subprocess.run(command, cwd=folder, check=False, stdout=subprocess.DEVNULL, stderr=subprocess.DEVNULL)


def row(program, folder, mebibytes):
    # Four bytes a number, and room for the rest of the file. A design may have 4,194,304 words.
    words = min(mebibytes * 262_144, 4_194_304) - 64
    text = data_of(words)
    for name, content in (('d.futil', DESIGN.format(words=words)), ('d.json', text)):
        with open(os.path.join(folder, name), 'w', encoding='ascii') as file:
            file.write(content)
    loading = best(lambda: run(program, folder, 1))
    whole = best(lambda: run(program, folder, 2))
    loaded = json.loads(text)
    load = best(lambda: json.load(io.StringIO(text)))
    dump = best(lambda: json.dump(loaded, io.StringIO(), separators=(',', ':')))
    print(f'{mebibytes:3} MiB {words:8} words   load {loading:6.3f}   json.load {load:6.3f}'
          f'   dump {whole - loading:6.3f}   json.dump {dump:6.3f}')


def main():
    if len(sys.argv) < 2:
        sys.exit(__doc__.strip())
    program = os.path.abspath(sys.argv[1])
    with tempfile.TemporaryDirectory() as folder:
        for mebibytes in (1, 4, 16):
            row(program, folder, mebibytes)


if __name__ == '__main__':
    main()
