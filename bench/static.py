#!/usr/bin/env python3
"""Measures static components: `check` against the length of a text, `interp` beside a design that is flat by hand, and texts at the edges.

    bench/static.py PROGRAM

PROGRAM is the built calyx_cli. Each text of 64 KiB and of 1 MiB is checked: printed are what is told, user seconds, the least of three runs, the peak of memory, and how many
times as much the longer one takes. Each run of a design with static components is beside one of the same design written flat, which has to tell the same line. With
valgrind installed the times are told by instructions, which other work on the machine leaves as they are. What is told at an edge is asserted.
"""
import json
import os
import resource
import shutil
import subprocess
import sys
import tempfile

from check import count_for, design
from share import instructions

ROUNDS = 3
SIZES = (65_536, 1_048_576)
BUDGET = '1000000000000'
LEAF = ("static<1> component p0(x: 32) -> (y: 32) {\n  cells { r = std_reg(32); }\n"
        "  wires { y = r.out; static<1> group g { r.in = x; r.write_en = 1'd1; } }\n  control { g; }\n}\n")


def above(k, times=1, levels=0):
    """A component that invokes the one below it so many times, so many levels deep in its control."""
    calls = 'static invoke c(x = x)(); ' * times
    held = f'static seq {{ {calls}}}' if times > 1 else calls
    return (f'static<{times ** k}> component p{k}(x: 32) -> (y: 32) {{ cells {{ c = p{k - 1}(); }} wires {{ y = c.y; }} '
            f"control {{ {'static seq { ' * levels}{held}{' }' * levels} }} }}\n")


def caller(top, cells='', invokes='invoke c(x = r.out)();'):
    return design(f'    r = std_reg(32);\n    c = {top}();\n{cells}', '', f'    {invokes}\n')


def chain(n):
    """So many components, each of which invokes the one before."""
    return caller(f'p{n - 1}') + LEAF + ''.join(above(k) for k in range(1, n))


def doubling(n):
    """The same, of which each invokes the one before twice."""
    return caller(f'p{n - 1}') + LEAF + ''.join(above(k, 2) for k in range(1, n))


def nested(levels):
    """Control that is so many levels deep once it is flat: 60 in each component."""
    parts, left = [LEAF], levels
    while left:
        parts.append(above(len(parts), levels=min(left, 60)))
        left -= min(left, 60)
    return caller(f'p{len(parts) - 1}') + ''.join(parts)


def many_inputs(n, wide=8):
    """A caller with so many invokes, of eight inputs each."""
    names = [f'the_operand_number_{k}' for k in range(wide)]
    bound = ', '.join(f'{name} = r.out' for name in names)
    child = (f"static<1> component p0({', '.join(f'{name}: 32' for name in names)}) -> () {{\n  cells {{ {' '.join(f'r{k} = std_reg(32);' for k in range(wide))} }}\n"
             f"  wires {{ static<1> group g {{ {' '.join(f'r{k}.in = {name}; r{k}.write_en = 1' + chr(39) + 'd1;' for k, name in enumerate(names))} }} }}\n  control {{ g; }}\n}}\n")
    return caller('p0', invokes=f'seq {{ {f"static invoke c({bound})(); " * n}}}') + child


def long_guard(n, times=1):
    """A child with one long guard, invoked so many times."""
    guard = ' & '.join(['(x == r.out | !w.out)'] * n)
    child = ("static<1> component p0(x: 32) -> (y: 32) {\n  cells { r = std_reg(32); w = std_reg(1); }\n"
             f"  wires {{ y = r.out; static<1> group g {{ r.in = {guard} ? x; r.write_en = 1'd1; }} }}\n  control {{ g; }}\n}}\n")
    calls = 'static invoke c(x = r.out)(); ' * times
    return caller('p0', invokes=f'seq {{ {calls}}}') + child


def guard_of_many_invokes(n):
    return long_guard(n, n)


def many_groups(n):
    """A child with so many groups, all of which it enables."""
    groups = ''.join(f"    static<1> group g{k} {{ r.in = x; r.write_en = 1'd1; }}\n" for k in range(n))
    child = (f'static<{n}> component p0(x: 32) -> (y: 32) {{\n  cells {{ r = std_reg(32); }}\n  wires {{\n    y = r.out;\n{groups}  }}\n'
             f"  control {{ static seq {{ {' '.join(f'g{k};' for k in range(n))} }} }}\n}}\n")
    return caller('p0') + child


def many_cells(n):
    """A caller with so many static cells, each of which it invokes."""
    cells = ''.join(f'    c{k} = p0();\n' for k in range(n))
    return caller('p0', cells, f"seq {{ {' '.join(f'static invoke c{k}(x = r.out)();' for k in range(n))} }}") + LEAF


SHAPES = (('a chain of components, each invoking the one before', chain), ('many invokes of eight inputs', many_inputs),
          ('a long guard in a child', long_guard), ('a long guard in a child of many invokes', guard_of_many_invokes), ('a child of many groups', many_groups),
          ('many static cells', many_cells))

MEMORIES = '@external a = std_mem_d1(32, 16, 4); @external out = std_mem_d1(32, 1, 1); i = std_reg(4); n = std_add(4);'
STEP = "a.addr0 = i.out;\n    static<1> group step { n.left = i.out; n.right = 4'd1; i.in = n.out; i.write_en = 1'd1; }"


def stored(source):
    return f"group st {{ out.addr0 = 1'd0; out.write_data = {source}; out.write_en = 1'd1; st[done] = out.done; }}"


def multiplied(turns, is_flat):
    """The component of examples/static_component, four cycles for each invoke, and one cycle more in a round."""
    cells = ('pipe = std_mult_pipe(32);', 'sum = std_add(32);', 'kept = std_reg(32);')
    groups = ("static<3> group multiply { pipe.left = x; pipe.right = w; pipe.go = 1'd1; }\n    "
              "static<1> group accumulate { sum.left = kept.out; sum.right = pipe.out; kept.in = sum.out; kept.write_en = 1'd1; }")
    if is_flat:
        groups = groups.replace('= x;', '= a.read_data;').replace('= w;', '= a.read_data;')
        return (f'component main() -> () {{\n  cells {{ {MEMORIES} {" ".join(cells)} total = std_wire(32); }}\n  wires {{\n    {STEP}\n    total.in = kept.out;\n    {groups}\n    {stored("total.out")}\n  }}\n'
                f'  control {{ seq {{ repeat {turns} {{ static seq {{ static seq {{ multiply; accumulate; }} step; }} }} st; }} }}\n}}\n')
    return (f'component main() -> () {{\n  cells {{ {MEMORIES} m = mac(); }}\n  wires {{\n    {STEP}\n    {stored("m.total")}\n  }}\n'
            f'  control {{ seq {{ repeat {turns} {{ static seq {{ static invoke m(x = a.read_data, w = a.read_data)(); step; }} }} st; }} }}\n}}\n'
            f'static<4> component mac(x: 32, w: 32) -> (total: 32) {{\n  cells {{ {" ".join(cells)} }}\n  wires {{\n    total = kept.out;\n    {groups}\n  }}\n'
            '  control { static seq { multiply; accumulate; } }\n}\n')


def captured(turns, is_flat):
    """A component in another, one cycle for each invoke and one in which its sum is captured, and one cycle more in a round."""
    if is_flat:
        return (f'component main() -> () {{\n  cells {{ {MEMORIES} k = std_reg(32); sum = std_add(32); kept = std_reg(32); low = std_wire(32); high = std_wire(32); }}\n'
                f"  wires {{\n    {STEP}\n    low.in = kept.out; high.in = low.out;\n"
                "    static<1> group add { sum.left = kept.out; sum.right = a.read_data; kept.in = sum.out; kept.write_en = 1'd1; }\n"
                f"    static<1> group capture {{ k.in = high.out; k.write_en = 1'd1; }}\n    {stored('k.out')}\n  }}\n"
                f'  control {{ seq {{ repeat {turns} {{ static seq {{ static seq {{ add; capture; }} step; }} }} st; }} }}\n}}\n')
    return (f'component main() -> () {{\n  cells {{ {MEMORIES} k = std_reg(32); m = high(); }}\n  wires {{\n    {STEP}\n    {stored("k.out")}\n  }}\n'
            f'  control {{ seq {{ repeat {turns} {{ static seq {{ static invoke m(x = a.read_data)(y = k.in); step; }} }} st; }} }}\n}}\n'
            'static<1> component high(x: 32) -> (y: 32) {\n  cells { m = low(); }\n  wires { y = m.y; }\n  control { static invoke m(x = x)(); }\n}\n'
            'static<1> component low(x: 32) -> (y: 32) {\n  cells { sum = std_add(32); kept = std_reg(32); }\n'
            "  wires { y = kept.out; static<1> group add { sum.left = kept.out; sum.right = x; kept.in = sum.out; kept.write_en = 1'd1; } }\n  control { add; }\n}\n")


RUNS = (('a product and a sum, 5 cycles a round', multiplied, 40_000), ('a sum two levels below, captured', captured, 100_000))


def run(words):
    """The status, what is written, user seconds and the peak of memory in bytes."""
    with tempfile.TemporaryFile() as out, tempfile.TemporaryFile() as told:
        child = subprocess.Popen(words, stdout=out, stderr=told)
        _, status, usage = os.wait4(child.pid, 0)
        child.returncode = os.waitstatus_to_exitcode(status)
        out.seek(0)
        told.seek(0)
        return child.returncode, (out.read() + told.read()).decode().strip(), usage.ru_utime, usage.ru_maxrss * 1024


def cost(words, folder):
    """The least user seconds of some runs, and the instructions, where they can be counted."""
    return min(run(words)[2] for _ in range(ROUNDS)), instructions(words, folder) if shutil.which('valgrind') else None


def grown(before, after):
    """How many times as much one run takes as another."""
    return after[1] / before[1] if before[1] and after[1] else after[0] / max(before[0], 0.001)


def written(folder, text, name='d.futil'):
    path = os.path.join(folder, name)
    with open(path, 'w', encoding='ascii') as file:
        file.write(text)
    return path


def flats(program, folder):
    """A chain that is accepted, made flat by `interp` without a turn: twice as many components each time."""
    data = written(folder, '{}', 'none.json')
    for count in (250, 500, 1000):
        status, told, took, peak = run([program, 'interp', written(folder, chain(count)), data, '0'])
        assert status == 3, told
        print(f'a chain of {count} components made flat: {took:.3f} s, {peak / 2 ** 20:.0f} MiB', flush=True)


def edges(program, folder):
    """What is told at 1,024 and 1,025 levels, and of texts that would be too large."""
    data = written(folder, '{}', 'none.json')
    for made, command, told in ((nested(1023), 'interp', '{"cycles":2,"memories":{}}'), (nested(1024), 'interp', 'memory'), (nested(1024), 'check', 'accepted'),
                                (doubling(13), 'compile', 'refused 1:1 too-large 24604'), (doubling(31), 'check', 'refused 1:1 limit groups')):
        found = run([program, command, written(folder, made), *((data, '100') if command == 'interp' else ())])[1]
        assert found == told, found


def checks(program, folder):
    for name, make in SHAPES:
        costs = []
        for size in SIZES:
            count = count_for(make, size)
            words = [program, 'check', written(folder, make(count))]
            _, told, _, peak = run(words)
            costs.append(cost(words, folder))
            print(f'{name}, {count}, {size} bytes: {told}, {costs[-1][0]:.3f} s, {peak / 2 ** 20:.1f} MiB, {(costs[-1][1] or 0) / 1e6:.0f} million instructions', flush=True)
        print(f'{name}: {grown(*costs):.1f} times', flush=True)


def runs(program, folder):
    words = {name: {'data': [(3 * k + 1) % 256 for k in range(size)], 'format': {'numeric_type': 'bitnum', 'is_signed': False, 'width': 32}} for name, size in (('a', 16), ('out', 1))}
    data = written(folder, json.dumps(words), 'd.json')
    for name, make, turns in RUNS:
        calls = [[program, 'interp', written(folder, make(turns, flat), f'{flat}.futil'), data] for flat in (True, False)]
        told = [run([*call, BUDGET]) for call in calls]
        assert told[0][:2] == told[1][:2] and told[0][0] == 0, told
        flat, static = [cost([*call, BUDGET], folder) for call in calls]
        print(f'{name}, {turns} rounds: {static[0]:.3f} s, flat by hand {flat[0]:.3f} s; {(static[1] or 0) / 1e6:.0f} and {(flat[1] or 0) / 1e6:.0f} million instructions: '
              f'{grown(flat, static):.2f} times', flush=True)


def main():
    if len(sys.argv) != 2:
        sys.exit(__doc__.strip())
    program = os.path.abspath(sys.argv[1])
    resource.setrlimit(resource.RLIMIT_CORE, (0, 0))
    with tempfile.TemporaryDirectory(prefix='static_') as folder:
        edges(program, folder)
        runs(program, folder)
        flats(program, folder)
        checks(program, folder)


if __name__ == '__main__':
    main()
