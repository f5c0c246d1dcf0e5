#!/usr/bin/env python3
"""Times the lexer and the parser on designs of 64 KiB, 256 KiB and 1 MiB, hostile ones among them.

    bench/text.py PROGRAM

PROGRAM is the built calyx_cli. Each design is no design of the first form, so the program ends after reading it. Printed are
the best time of three, in milliseconds with the start of the program, and the peak of memory, in bytes for each byte of text
above what the empty text takes.
"""
import os
import sys
import tempfile
import time

ROUNDS = 3
SIZES = (65_536, 262_144, 1_048_576)
HEAD = 'component main() -> () { cells { } wires { '
TAIL = ' } control { } }'


def filled(piece, size, head=HEAD, tail=TAIL):
    """A text of at most so many bytes: the head, as many pieces as fit, the tail."""
    return head + piece * ((size - len(head) - len(tail)) // len(piece)) + tail


def texts(size):
    name = 'n' * 255
    deep = 'seq {' * 62 + '}' * 62 + ' '
    yield 'groups of four assignments', filled(
        'group g { r.in = a.out; r.write_en = 1\'d1; a.left = r.out; g[done] = r.done; } ', size)
    yield 'one long comment', filled(' ', size, 'component main() -> () { /*', '*/ cells { } wires { } }')
    yield 'tokens of one byte', filled('{', size, '', '')
    yield '62 levels over and over', filled(deep, size, 'component main() -> () { cells { } wires { } control { ', '} }')
    yield 'one name of 255 bytes', filled(f'{name} = x; ', size)
    yield 'one guard of conjuncts', filled('& a.out ', size, HEAD + 'x = a.out ', '? b.out; ' + TAIL)


def run(program, folder):
    """Seconds and the peak of memory in bytes of one run."""
    begin = time.perf_counter()
    child = os.posix_spawn(program, [program, 'interp', folder + '/d.futil', folder + '/d.json', '1'], {},
                           file_actions=[(os.POSIX_SPAWN_OPEN, fd, '/dev/null', os.O_WRONLY, 0) for fd in (1, 2)])
    _, _, usage = os.wait4(child, 0)
    return time.perf_counter() - begin, usage.ru_maxrss * 1024


def measured(program, folder, text):
    with open(folder + '/d.futil', 'w', encoding='ascii') as file:
        file.write(text)
    runs = [run(program, folder) for _ in range(ROUNDS)]
    return min(seconds for seconds, _ in runs), min(peak for _, peak in runs)


def main():
    if len(sys.argv) < 2:
        sys.exit(__doc__.strip())
    program = os.path.abspath(sys.argv[1])
    with tempfile.TemporaryDirectory() as folder:
        with open(folder + '/d.json', 'w', encoding='ascii') as file:
            file.write('{}')
        _, empty = measured(program, folder, '')
        for name in [name for name, _ in texts(SIZES[0])]:
            row = f'{name:28}'
            for size in SIZES:
                text = dict(texts(size))[name]
                seconds, peak = measured(program, folder, text)
                row += f'  {seconds * 1000:8.1f} ms {max(peak - empty, 0) / len(text):6.1f}'
            print(row)


if __name__ == '__main__':
    main()
