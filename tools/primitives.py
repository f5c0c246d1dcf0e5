#!/usr/bin/env python3
"""Prints the table of all primitives, from their rows in crates/cx_prim/specs.

    tools/primitives.py          prints it
    tools/primitives.py --check  looks that docs/PRIMITIVES.md has it
"""
import os
import re
import sys

TOP = os.path.join(os.path.dirname(os.path.abspath(__file__)), '..')
NUMBERS = {'constant_at': 'WIDTH, VALUE', 'at_width': 'WIDTH', 'slice_at': 'IN_WIDTH, OUT_WIDTH', 'pad_at': 'IN_WIDTH, OUT_WIDTH'}
MEANINGS = {
    'constant': 'the value', 'sum_of': 'left + right', 'difference_of': 'left - right', 'and_of': 'and of bits', 'or_of': 'or of bits', 'xor_of': 'exclusive or of bits',
    'complement_of': 'all bits turned', 'left_shift_of': 'left shifted up by right', 'right_shift_of': 'left shifted down by right', 'low_bits_of': 'the low bits',
    'zero_extension_of': 'zeros above', 'mux': '`tru` where `cond` is 1, else `fal`', 'wire': 'the same',
    'equal_bit_of': 'left is right', 'unequal_bit_of': 'left is not right', 'less_bit_of': 'left < right', 'greater_bit_of': 'left > right',
    'at_most_bit_of': 'left <= right', 'at_least_bit_of': 'left >= right', 'signed_less_bit_of': 'left < right, signed', 'signed_greater_bit_of': 'left > right, signed',
    'signed_at_most_bit_of': 'left <= right, signed', 'signed_at_least_bit_of': 'left >= right, signed',
    'register': 'with `write_en`: `out` is `in` from the next cycle on', 'memory': 'with `write_en` the word is `write_data` from the next cycle on; `read_data` is the word in the same cycle',
    'sequential_memory': 'with `content_en`: with `write_en` too the word is `write_data`, else `read_data` is the word, from the next cycle on',
    'multiplier': 'left * right', 'divider': 'quotient and remainder; a divisor of 0 gives all ones and the dividend',
}


def text_of(path):
    with open(os.path.join(TOP, path), encoding='utf-8') as file:
        return file.read()


def spelled(path, kind):
    """How each variant of an enum is written."""
    return dict(re.findall(rf'{kind}::(\w+) => "(\w+)"', text_of(path)))


def rows():
    """Of each row its ports as they are written, by the name of its definition."""
    found = {}
    for file in ('CombinationalRows', 'RegisterRow', 'MemoryRows', 'PipeRows'):
        for name, body in re.findall(r'^(\w+)_row \w.*? =(.*?)(?=^(?:abbrev|--)|\Z)', text_of(f'crates/cx_prim/specs/{file}.antt'), flags=re.M | re.S):
            found[name] = body
    return found


def ports_of(body, names, dimensions):
    """The ports in order, each with its width; an enabling port is marked."""
    told = [f'addr{k}: IDX_SIZE{k}' for k in range(dimensions)]
    for side, name, width in re.findall(r'(plain|enable|output|registered)_port (\w+)(?: (\w+))?', body):
        told.append(f'{names[name]}{"!" if side == "enable" else ""}: {wide(width or "1")}')
    return ', '.join(told)


def wide(width):
    return {'width': 'WIDTH', 'out_width': 'OUT', 'w': 'WIDTH'}.get(width, width)


def latency_of(row):
    pipes = text_of('crates/cx_prim/specs/PipeRows.antt')
    if row == 'multiplier':
        return re.search(r'^multiplier_latency = (\d+)', pipes, flags=re.M).group(1)
    if row == 'divider':
        assert 'divider_go width width' in pipes
        return 'WIDTH'
    return {'register': '1', 'memory': '1 (write)', 'sequential_memory': '1'}.get(row, 'none')


def line(variant, given, names, ports, bodies):
    """A line of the table: what stands behind `row_at VARIANT numbers =`."""
    maker, rest = given.split(' ', 1)
    dimensions = int(rest.split()[0]) if maker == 'memory_at' else 0
    inner = {'constant_at': 'constant_row', 'slice_at': 'unary_row width out low_bits_of', 'pad_at': 'unary_row width out zero_extension_of'}.get(maker, rest)
    row = re.search(r'(\w+)_row', inner).group(1)
    operator = next((word for word in re.findall(r'\w+', inner) if word in MEANINGS), row)
    if operator == 'unary':
        operator = 'wire'
    told, numbers, name = ports_of(bodies[row], ports, dimensions), NUMBERS.get(maker), f'`{names[variant]}'
    if row == 'unary' and maker != 'at_width':
        told = 'in: IN_WIDTH, out: OUT_WIDTH'
    told = told.replace(': OUT', ': 1' if row == 'binary' and ' 1 ' in inner else ': WIDTH') if 'OUT_' not in told else told
    if dimensions:
        numbers = 'WIDTH, SIZE0, IDX_SIZE0'
    named = f'{name}({numbers})`' + (f' to {name[:-1]}4`' if dimensions else '')
    return f'| {named} | {told} | {latency_of(row)} | {MEANINGS[operator]} |'


def table():
    names, ports, bodies = spelled('crates/cx_prim/src/names.rt', 'PrimitiveName'), spelled('crates/cx_prim/src/ports.rt', 'PortName'), rows()
    lines = ['| Primitive | Ports, in order, with their widths | Cycles | What it gives |', '|---|---|---|---|']
    for variant, given in re.findall(r'^row_at (\w+) numbers = (.*)$', text_of('crates/cx_prim/specs/Table.antt'), flags=re.M):
        if variant == 'Const':
            given = 'constant_at numbers'
        if variant != 'Timer' and not re.search('D[234]$', variant):
            lines.append(line(variant, given, names, ports, bodies))
    return '\n'.join(lines) + '\n'


def main():
    made = table()
    if sys.argv[1:] == ['--check']:
        known = made in text_of('docs/PRIMITIVES.md')
        print('docs/PRIMITIVES.md has the table' if known else 'docs/PRIMITIVES.md has another table')
        return 0 if known else 1
    print(made, end='')
    return 0


if __name__ == '__main__':
    sys.exit(main())
