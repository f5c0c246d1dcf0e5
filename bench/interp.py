#!/usr/bin/env python3
"""Times runs of designs by `interp`: how many turns a second, what a turn costs, and what each port costs that is looked at.

    bench/interp.py PROGRAM

PROGRAM is the built calyx_cli. The cycles and the words at the end of each run are asserted. A turn is counted in each arm of a `par` that takes
it, and a port once for each turn that looks at it; both are worked out by hand from the meaning of control. Printed are the turns, the
best time of a few runs in seconds without that of a run that may take no turn, the turns a second, and the nanoseconds for a turn and
for a port.
"""
import json
import os
import re
import subprocess
import sys
import tempfile
import time
from dataclasses import dataclass

ROUNDS = 5
BUDGET = 1_000_000_000_000


@dataclass
class Shape:
    """A design with its memories before and after, the cycles that it takes, and the turns and ports that it looks at in all arms."""
    name: str
    text: str
    before: dict
    after: dict
    cycles: int
    turns: int
    ports: int | None


def component(cells, wires, control):
    return 'component main() -> () {\n  cells {\n' + cells + '  }\n  wires {\n' + wires + '  }\n  control {\n    ' + control + '\n  }\n}\n'


# The group `st` stores a register in the memory `mem`. It looks at 8 ports in its first turn and at 2 in its second.
STORED = '    @external mem = std_mem_d1(32, 1, 1);\n'
STORE = "    group st { mem.addr0 = 1'd0; mem.write_data = r0.out; mem.write_en = 1'd1; st[done] = mem.done; }\n"


def counter(k, rounds):
    """The cells and the wires of a counter. `inc` looks at 8 ports in its first turn and at 2 in its second, and a test at 4."""
    cells = f'    r{k} = std_reg(32); a{k} = std_add(32); lt{k} = std_lt(32);\n'
    wires = (f"    group inc{k} {{ a{k}.left = r{k}.out; a{k}.right = 32'd1; r{k}.in = a{k}.out; r{k}.write_en = 1'd1; "
             f'inc{k}[done] = r{k}.done; }}\n'
             f"    comb group c{k} {{ lt{k}.left = r{k}.out; lt{k}.right = 32'd{rounds}; }}\n")
    return cells, wires


def repeated(name, turns, idle=0):
    """One register and one adder, beside so many idle groups, each with a register of its own: a `repeat` of the increment."""
    cells, wires = counter(0, 0)
    cells = STORED + '    never = std_reg(1);\n' + cells + ''.join(f'    i{k} = std_reg(32);\n' for k in range(idle))
    wires += STORE + ''.join(f"    group g{k} {{ i{k}.in = 32'd1; i{k}.write_en = 1'd1; g{k}[done] = i{k}.done; }}\n" for k in range(idle))
    idly = ' '.join(f'g{k};' for k in range(idle))
    control = f'seq {{ repeat {turns // 2} {{ inc0; }} if never.out {{ {idly} }} st; }}'
    # the `if` takes a turn for its test and one for the empty branch
    return Shape(name, component(cells, wires, control), {'mem': [0]}, {'mem': [turns // 2]}, turns + 4, turns + 4, 5 * turns + 11)


def looping(name, counters, rounds):
    """So many loops in the arms of a `par`. A round takes a test and an increment of two turns, and the last test one turn more."""
    parts = [counter(k, rounds) for k in range(counters)]
    loops = ' '.join(f'while lt{k}.out with c{k} {{ inc{k}; }}' for k in range(counters))
    control = f'seq {{ par {{ {loops} }} st; }}' if counters > 1 else f'seq {{ {loops} st; }}'
    text = component(STORED + ''.join(part[0] for part in parts), ''.join(part[1] for part in parts) + STORE, control)
    turns, ports = counters * (3 * rounds + 1) + 2, counters * (14 * rounds + 4) + 10
    return Shape(name, text, {'mem': [0]}, {'mem': [rounds]}, 3 * rounds + 3, turns, ports)


def walk(name):
    """A sum over 65,536 words. `add` looks at 12 ports in its first turn, `next` at 8, and both at 2 in their second."""
    cells = STORED + '    @external words = std_mem_d1(32, 65536, 16); i = std_reg(16); n = std_add(16); r0 = std_reg(32); s = std_add(32);\n'
    wires = ("    group add { words.addr0 = i.out; s.left = r0.out; s.right = words.read_data; r0.in = s.out; r0.write_en = 1'd1; "
             'add[done] = r0.done; }\n'
             "    group next { n.left = i.out; n.right = 16'd1; i.in = n.out; i.write_en = 1'd1; next[done] = i.done; }\n" + STORE)
    words = [(k * 2654435761) % 2**32 for k in range(65_536)]
    after = {'mem': [sum(words) % 2**32], 'words': words}
    turns = 4 * 65_536 + 2
    control = 'seq { repeat 65536 { seq { add; next; } } st; }'
    return Shape(name, component(cells, wires, control), {'mem': [0], 'words': words}, after, turns, turns, 24 * 65_536 + 10)


def timed(name, times):
    """A static repeat of two cycles, each of which looks at the enabling ports of the three cells and at what they demand."""
    cells = STORED + '    r0 = std_reg(32); a = std_add(32); never = std_reg(1);\n'
    wires = "    static<2> group two { a.left = r0.out; a.right = %0 ? 32'd1; a.right = %1 ? 32'd2; r0.in = a.out; r0.write_en = 1'd1; }\n" + STORE
    control = f'seq {{ static repeat {times} {{ two; }} st; }}'
    after = {'mem': [3 * times % 2**32]}
    return Shape(name, component(cells, wires, control), {'mem': [0]}, after, 2 * times + 3, 2 * times + 3, 8 * 2 * times + 10)


def product_arm(r):
    """The cells, the groups and the loop of a row of the matrix product."""
    cells = ('@external A = std_mem_d1(32, 8, 4); @external B = std_mem_d2(32, 8, 8, 4, 4); @external C = std_mem_d1(32, 8, 4); m = std_mult_pipe(32); '
             'p = std_reg(32); acc = std_reg(32); k = std_reg(4); j = std_reg(4); ap = std_add(32); ak = std_add(4); aj = std_add(4); '
             'lk = std_lt(4); lj = std_lt(4);')
    groups = ("group zj { j.in = 4'd0; j.write_en = 1'd1; zj[done] = j.done; }",
              "group zk { k.in = 4'd0; k.write_en = 1'd1; acc.in = 32'd0; acc.write_en = 1'd1; zk[done] = k.done & acc.done ? 1'd1; }",
              "group mul { A.addr0 = k.out; B.addr0 = k.out; B.addr1 = j.out; m.left = A.read_data; m.right = B.read_data; m.go = !m.done ? 1'd1; "
              'p.in = m.out; p.write_en = m.done; mul[done] = p.done; }',
              "group sum { ap.left = acc.out; ap.right = p.out; acc.in = ap.out; acc.write_en = 1'd1; sum[done] = acc.done; }",
              "group nk { ak.left = k.out; ak.right = 4'd1; k.in = ak.out; k.write_en = 1'd1; nk[done] = k.done; }",
              "group sto { C.addr0 = j.out; C.write_data = acc.out; C.write_en = 1'd1; sto[done] = C.done; }",
              "group nj { aj.left = j.out; aj.right = 4'd1; j.in = aj.out; j.write_en = 1'd1; nj[done] = j.done; }",
              "comb group tk { lk.left = k.out; lk.right = 4'd8; }", "comb group tj { lj.left = j.out; lj.right = 4'd8; }")
    loop = 'seq { zj; while lj.out with tj { seq { zk; while lk.out with tk { seq { mul; sum; nk; } } sto; nj; } } }'
    names = sorted(('A', 'B', 'C', 'm', 'p', 'acc', 'k', 'j', 'ap', 'ak', 'aj', 'lk', 'lj', 'zj', 'zk', 'mul', 'sum', 'nk', 'sto', 'nj', 'tk', 'tj'))

    def numbered(text):
        for name in names:
            text = re.sub(rf"(?<![\w'.]){name}(?!\w)", f'{name}{r}', text)
        return text

    return numbered(cells), ' '.join(numbered(group) for group in groups), numbered(loop)


def product(name):
    """The 8 by 8 matrix product in eight arms. Its ports are not counted."""
    arms = [product_arm(r) for r in range(8)]
    cells, wires = ''.join(f'    {arm[0]}\n' for arm in arms), ''.join(f'    {arm[1]}\n' for arm in arms)
    unit = [[int(row == column) for column in range(8)] for row in range(8)]
    before, after = {}, {}
    for r in range(8):
        row = list(range(r, r + 8))
        before |= {f'A{r}': row, f'B{r}': unit, f'C{r}': [0] * 8}
        after |= {f'A{r}': row, f'B{r}': unit, f'C{r}': row}
    return Shape(name, component(cells, wires, 'par { ' + ' '.join(arm[2] for arm in arms) + ' }'), before, after, 707, 8 * 707, None)


def shapes():
    return (
        repeated('one register and one adder', 1_000_000),
        repeated('the same beside 1,000 idle groups and registers', 1_000_000, 1_000),
        looping('the same in a while loop', 1, 333_333),
        looping('64 while loops in a par', 64, 5_000),
        walk('a walk over 65,536 words'),
        timed('static repeat 1000000 of two cycles', 1_000_000),
        product('an 8 by 8 matrix product'),
    )


def best(words, status):
    """The output and the best time of a few runs."""
    times = []
    for _ in range(ROUNDS):
        begin = time.perf_counter()
        ran = subprocess.run(words, capture_output=True, check=False)
        times.append(time.perf_counter() - begin)
        assert ran.returncode == status, ran
    return ran.stdout, min(times)


def written(folder, shape):
    """The files of a design and of its data, written to a folder."""
    design, data = folder + '/d.futil', folder + '/d.json'
    with open(design, 'w', encoding='ascii') as file:
        file.write(shape.text)
    form = {'numeric_type': 'bitnum', 'is_signed': False, 'width': 32}
    with open(data, 'w', encoding='ascii') as file:
        json.dump({name: {'data': words, 'format': form} for name, words in shape.before.items()}, file)
    return design, data


def seconds(program, folder, shape):
    """The best time of a few runs without the best of a few that may take no turn."""
    call = [program, 'interp', *written(folder, shape)]
    out, took = best([*call, str(BUDGET)], 0)
    assert json.loads(out) == {'cycles': shape.cycles, 'memories': shape.after}, out[:200]
    return took - best([*call, '0'], 3)[1]


def main():
    if len(sys.argv) < 2:
        sys.exit(__doc__.strip())
    program = os.path.abspath(sys.argv[1])
    with tempfile.TemporaryDirectory() as folder:
        for shape in shapes():
            took = seconds(program, folder, shape)
            each = f'{took / shape.ports * 1e9:6.0f} ns a port' if shape.ports else ''
            print(f'{shape.name:50} {shape.turns:9} turns {took:8.3f} s {shape.turns / took:10.0f} a second {took / shape.turns * 1e9:6.0f} ns a turn {each}')


if __name__ == '__main__':
    main()
