"""The primitives as the tools know them: their ports with widths, which of them are enabling or registered, and what is computed in the same cycle.

docs/PRIMITIVES.md has the table; tests of this folder compare the two.
"""
import re
from typing import NamedTuple

WORDS = {
    'std_add': lambda a, b, w: a + b, 'std_sub': lambda a, b, w: a - b, 'std_and': lambda a, b, w: a & b, 'std_or': lambda a, b, w: a | b,
    'std_xor': lambda a, b, w: a ^ b, 'std_lsh': lambda a, b, w: a << min(b, w), 'std_rsh': lambda a, b, w: a >> min(b, w),
}
BITS = {
    'std_lt': lambda a, b: a < b, 'std_gt': lambda a, b: a > b, 'std_eq': lambda a, b: a == b, 'std_neq': lambda a, b: a != b,
    'std_le': lambda a, b: a <= b, 'std_ge': lambda a, b: a >= b,
}
SIGNED = {
    'std_slt': BITS['std_lt'], 'std_sgt': BITS['std_gt'], 'std_seq': BITS['std_eq'], 'std_sneq': BITS['std_neq'], 'std_sle': BITS['std_le'], 'std_sge': BITS['std_ge'],
}
TWO = {'std_const': 'WIDTH, VALUE', 'std_slice': 'IN_WIDTH, OUT_WIDTH', 'std_pad': 'IN_WIDTH, OUT_WIDTH'}
MEMORIES = [f'{kind}_d{sizes}' for kind in ('std_mem', 'comb_mem', 'seq_mem') for sizes in range(1, 5)]
PIPES = ['std_mult_pipe', 'std_div_pipe']
NAMES = ['std_wire', 'std_not', *WORDS, *BITS, *SIGNED, *TWO, 'std_mux', 'std_reg', *MEMORIES, *PIPES]
MOST_WIDTH = 128


class Port(NamedTuple):
    """`side` is in, enable, out (computed in the same cycle) or registered."""

    name: str
    width: int
    side: str

    @property
    def is_input(self):
        return self.side in ('in', 'enable')


def sizes_of(kind):
    """How many sizes a memory has; 0 of what is none."""
    found = re.fullmatch(r'(?:std|comb|seq)_mem_d([1-4])', kind)
    return int(found.group(1)) if found else 0


def numbers_of(kind):
    """The numbers that a primitive takes, in words; None where it is none."""
    sizes = sizes_of(kind)
    if sizes:
        return ', '.join(['WIDTH', *(f'SIZE{k}' for k in range(sizes)), *(f'IDX_SIZE{k}' for k in range(sizes))])
    return TWO.get(kind, 'WIDTH') if kind in NAMES else None


def ports_of(kind, numbers):
    """The ports of a primitive in order; none where it is not there or has other numbers."""
    wanted = numbers_of(kind)
    if kind == 'cx_timer':
        return [Port('go', 1, 'enable'), Port('out', 32, 'registered'), Port('done', 1, 'registered')]
    if wanted is None or len(numbers) != len(wanted.split(',')):
        return []
    width, out = numbers[0], numbers[-1]
    if sizes_of(kind):
        return memory_ports(kind, numbers)
    if kind == 'std_const':
        return [Port('out', width, 'out')]
    if kind in ('std_wire', 'std_not', 'std_slice', 'std_pad'):
        return [Port('in', width, 'in'), Port('out', out, 'out')]
    if kind == 'std_mux':
        return [Port('cond', 1, 'in'), Port('tru', width, 'in'), Port('fal', width, 'in'), Port('out', width, 'out')]
    if kind == 'std_reg':
        return [Port('in', width, 'in'), Port('write_en', 1, 'enable'), Port('out', width, 'registered'), Port('done', 1, 'registered')]
    sides = [Port('left', width, 'in'), Port('right', width, 'in')]
    if kind in PIPES:
        outs = ['out'] if kind == 'std_mult_pipe' else ['out_quotient', 'out_remainder']
        return [Port('go', 1, 'enable'), *sides, *(Port(name, width, 'registered') for name in outs), Port('done', 1, 'registered')]
    return [*sides, Port('out', width if kind in WORDS else 1, 'out')]


def memory_ports(kind, numbers):
    width, sizes = numbers[0], sizes_of(kind)
    ports = [Port(f'addr{k}', numbers[1 + sizes + k], 'in') for k in range(sizes)]
    if kind.startswith('seq'):
        return [*ports, Port('content_en', 1, 'enable'), Port('write_en', 1, 'enable'), Port('write_data', width, 'in'), Port('read_data', width, 'registered'),
                Port('done', 1, 'registered')]
    return [*ports, Port('write_data', width, 'in'), Port('write_en', 1, 'enable'), Port('read_data', width, 'out'), Port('done', 1, 'registered')]


def inputs_of_output(kind, name):
    """The inputs that an output of the same cycle is computed from, in port order."""
    if name == 'read_data':
        return [f'addr{k}' for k in range(sizes_of(kind))]
    if kind == 'std_mux':
        return ['cond', 'tru', 'fal']
    if kind in ('std_wire', 'std_not', 'std_slice', 'std_pad'):
        return ['in']
    return [] if kind == 'std_const' else ['left', 'right']


def signed(value, width):
    return value - (1 << width) if value >> (width - 1) else value


def value_of(kind, numbers, given):
    """What an output of the same cycle is, from the values of its inputs in order; not of a memory."""
    width = numbers[0]
    if kind == 'std_const':
        return numbers[1]
    if kind == 'std_mux':
        return given[1] if given[0] else given[2]
    if kind in ('std_wire', 'std_pad'):
        return given[0]
    if kind == 'std_not':
        return (1 << width) - 1 - given[0]
    if kind == 'std_slice':
        return given[0] % (1 << numbers[1])
    left, right = given
    if kind in WORDS:
        return WORDS[kind](left, right, width) % (1 << width)
    if kind in SIGNED:
        return int(SIGNED[kind](signed(left, width), signed(right, width)))
    return int(BITS[kind](left, right))


def cell_ports(design, cell):
    """The ports of any cell: of a component go, its inputs, its outputs and done."""
    part = design.by_name.get(cell.kind)
    if part is None:
        return ports_of(cell.kind, cell.numbers)
    inputs = [Port(port.name, port.width, 'in') for port in part.data_ports(part.in_ports)]
    outputs = [Port(port.name, port.width, 'out') for port in part.data_ports(part.out_ports)]
    return [Port('go', 1, 'enable'), *inputs, *outputs, Port('done', 1, 'registered')]


def port_of(design, part, operand):
    """The port that an operand names; None of a literal, a hole and what is not there."""
    if operand.literal or operand.group:
        return None
    if operand.cell:
        cell = part.cell(operand.cell)
        return next((port for port in cell_ports(design, cell) if port.name == operand.port), None) if cell else None
    for side, ports in (('out', part.in_ports), ('in', part.out_ports)):
        for port in ports:
            if port.name == operand.port:
                return Port(port.name, port.width, side)
    return None


def width_of(design, part, operand):
    """The bits of an operand, where they are known."""
    if operand.literal:
        return operand.width_and_value()[0]
    if operand.group:
        return 1
    port = port_of(design, part, operand)
    return port.width if port else None
