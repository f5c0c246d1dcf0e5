#!/usr/bin/env python3
"""Times the checks of a design on designs of 64 KiB, 256 KiB and 1 MiB, and on those that ask for much work.

    bench/check.py PROGRAM

PROGRAM is the built calyx_cli, which is run as `PROGRAM check FILE`. Each design breaks no rule but limits, which are tried last, so that all
stages are timed: status 0 is accepted, and 2 over a limit. Printed are the status,
the best time of three, in milliseconds with the start of the program, the peak of memory in MiB, and at the end how many times
as long the longest text takes as the shortest, of which it is 16 times as long.
"""
import os
import sys
import tempfile
import time

ROUNDS = 3
SIZES = (65_536, 262_144, 1_048_576)


def design(cells, wires, control, before=''):
    return (before + 'component main() -> () {\n  cells {\n' + cells + '  }\n  wires {\n' + wires + '  }\n  control {\n' + control
            + '  }\n}\n')


def count_for(make, size):
    """The most pieces with which the text is no longer than the size."""
    low, high = 1, 2
    while len(make(high)) <= size:
        low, high = high, 2 * high
    while high - low > 1:
        middle = (low + high) // 2
        if len(make(middle)) <= size:
            low = middle
        else:
            high = middle
    return low


def store(name, register, value="32'd1"):
    return (f"    group {name} {{ {register}.in = {value}; {register}.write_en = 1'd1; {name}[done] = {register}.done; }}\n")


def small_groups(n):
    return design('    r = std_reg(32);\n', ''.join(store(f'g{k}', 'r') for k in range(n)),
                  '    seq { ' + ' '.join(f'g{k};' for k in range(n)) + ' }\n')


def one_group(n):
    wires = ''.join(f"      w{k}.in = 1'd1;\n" for k in range(n))
    return design('    r = std_reg(32);\n' + ''.join(f'    w{k} = std_wire(1);\n' for k in range(n)),
                  "    group g {\n" + wires + "      r.in = 32'd1; r.write_en = 1'd1; g[done] = r.done;\n    }\n", '    g;\n')


def chain_of_adders(n):
    cells = '    r = std_reg(32);\n' + ''.join(f'    a{k} = std_add(32);\n' for k in range(n))
    wires = ''.join(f"    a{k}.left = {f'a{k - 1}.out' if k else 'r.out'}; a{k}.right = 32'd1;\n" for k in range(n))
    return design(cells, wires + store('g', 'r', f'a{n - 1}.out'), '    g;\n')


def groups_at_a_chain(n, driven=False):
    """As many groups as wires in a chain, each of which reads the end of the chain. What begins it is a register, or a wire that
    a group of its own drives."""
    cells = '    r = std_reg(32);\n    s = std_wire(32);\n' + ''.join(f'    w{k} = std_wire(32);\n' for k in range(n))
    first = 's.out' if driven else 'r.out'
    wires = ''.join(f"    w{k}.in = {f'w{k - 1}.out' if k else first};\n" for k in range(n))
    begin = "    group begin { s.in = 32'd1; r.in = 32'd1; r.write_en = 1'd1; begin[done] = r.done; }\n"
    groups = begin + ''.join(store(f'g{k}', 'r', f'w{n - 1}.out') for k in range(n))
    return design(cells, wires + groups, '    seq { begin; ' + ' '.join(f'g{k};' for k in range(n)) + ' }\n')


def groups_at_a_driven_chain(n):
    return groups_at_a_chain(n, True)


def wide_par(n):
    cells = ''.join(f'    r{k} = std_reg(32);\n' for k in range(n))
    return design(cells, ''.join(store(f'g{k}', f'r{k}') for k in range(n)), '    par { ' + ' '.join(f'g{k};' for k in range(n)) + ' }\n')


def many_drivers(n):
    """As many assignments to one port in a group, each where another number stands in a register."""
    drivers = ''.join(f"      r.in = k.out == 32'd{k} ? 32'd{k};\n" for k in range(n))
    return design('    r = std_reg(32);\n    k = std_reg(32);\n', f"    group g {{\n{drivers}      r.write_en = 1'd1; g[done] = r.done;\n    }}\n", '    g;\n')


def many_components(n):
    parts = ''.join(f"component p{k}() -> () {{ cells {{ r = std_reg(1); }} wires {{ group g {{ r.in = 1'd1; r.write_en = 1'd1; "
                    'g[done] = r.done; } } control { g; } }\n' for k in range(n))
    return design('', '', '', parts)


def nested_control(n):
    deep = 'seq {' * 60 + ' g; ' + '}' * 60 + '\n'
    return design('    r = std_reg(32);\n', store('g', 'r'), '    seq {\n' + deep * n + '    }\n')


SHAPES = (
    ('many small groups', small_groups),
    ('one group of many assignments', one_group),
    ('a chain of adders', chain_of_adders),
    ('groups at the end of a chain', groups_at_a_chain),
    ('the same, driven by a group', groups_at_a_driven_chain),
    ('a par of many arms', wide_par),
    ('a port of many drivers', many_drivers),
    ('many components', many_components),
    ('control 62 deep, over and over', nested_control),
)


def run(program, path):
    """The status, seconds and the peak of memory in bytes of one run."""
    begin = time.perf_counter()
    child = os.posix_spawn(program, [program, 'check', path], {},
                           file_actions=[(os.POSIX_SPAWN_OPEN, fd, '/dev/null', os.O_WRONLY, 0) for fd in (1, 2)])
    _, status, usage = os.wait4(child, 0)
    return os.waitstatus_to_exitcode(status), time.perf_counter() - begin, usage.ru_maxrss * 1024


def main():
    if len(sys.argv) < 2:
        sys.exit(__doc__.strip())
    program = os.path.abspath(sys.argv[1])
    with tempfile.TemporaryDirectory() as folder:
        path = folder + '/d.futil'
        for name, make in SHAPES:
            row = f'{name:32}'
            times = []
            for size in SIZES:
                with open(path, 'w', encoding='ascii') as file:
                    file.write(make(count_for(make, size)))
                runs = [run(program, path) for _ in range(ROUNDS)]
                seconds = min(seconds for _, seconds, _ in runs)
                peak = min(peak for _, _, peak in runs)
                times.append(seconds)
                row += f'  {runs[0][0]} {seconds * 1000:8.1f} ms {peak / 2 ** 20:6.1f}'
            print(f'{row}  {times[-1] / times[0]:6.1f}')


if __name__ == '__main__':
    main()
