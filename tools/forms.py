"""Forms of Calyx as it is written elsewhere that `check` refuses, and what to write in their place. docs/LANGUAGE.md has the table with text to paste."""
import re
from typing import NamedTuple

PAGE = 'docs/LANGUAGE.md, "Calyx as it is written elsewhere"'


class Form(NamedTuple):
    """What to write, and whether tools/calyx port does it."""

    write: str
    is_ported: bool = False


FORMS = {
    'metadata': Form('nothing: cut it', True),
    'sourceinfo': Form('nothing: cut it', True),
    'set attribute': Form('nothing: attributes of this form have no meaning here', True),
    'empty statement': Form('nothing where it has no `@sync`; two arms of a `par` cannot wait for each other on the way: end the `par` there and begin another'),
    'else if': Form('`else { if .. { } }`', True),
    'invoke with': Form('a group that drives the cell as the invoke does, with the assignments of the comb group in it', True),
    'cells handed to an invoke': Form('an external memory in `main`, and its words through ports of the component'),
    'ref cell': Form('an external memory in `main`, and its words through ports of the component'),
    'static main': Form('a static component that `main` invokes (docs/STATIC.md)'),
    'static invoke': Form('`invoke`, in dynamic control', True),
    'comb component': Form('its cells and continuous assignments where they are used'),
    'extern': Form('nothing, where its primitives are those of docs/PRIMITIVES.md; else what they do, in those that are there', True),
    'primitive': Form('what it does, in the primitives that are there'),
    'fsm': Form('a register for the state, and a `while` with an `if` for each state; or control'),
    'length behind the name': Form('`static<1> group a`: the length stands before `group`', True),
}
# What stands for a primitive of another library.
PRIMITIVES = {
    r'std_signext': Form('`std_pad`, an exclusive or with the sign bit, and its subtraction', True),
    r'std_bit_slice': Form('`std_rsh` by the first bit, and a `std_slice`', True),
    r'std_cat': Form('two `std_pad`, a `std_lsh` and a `std_or`', True),
    r'std_sadd|std_fp_s?add': Form('`std_add`: the bits are the same', True),
    r'std_ssub|std_fp_s?sub': Form('`std_sub`: the bits are the same', True),
    r'std_slsh': Form('`std_lsh`: the bits are the same', True),
    r'std_srsh': Form('shifts of the word with its sign bit turned, less the shifted sign bit', True),
    r'std_smult_pipe|std_umult_pipe|std_multu?_pipe|std_mults_pipe': Form('`std_mult_pipe`: the low half of a product is the same with signs and without', True),
    r'std_udiv_pipe|std_divu_pipe': Form('`std_div_pipe`, and its `out_quotient`', True),
    r'std_remu_pipe': Form('`std_div_pipe`, and its `out_remainder`', True),
    r'std_sdiv_pipe|std_divs_pipe|std_rems_pipe': Form('`std_div_pipe` of the sizes without signs, and the sign behind it'),
    r'std_fp_s?(gt|lt|eq)': Form('the comparison without `fp_`: the point stands at one place on both sides', True),
    r'std_fp_mult_pipe': Form('`std_mult_pipe` at twice the width, then `std_rsh` by the bits behind the point and `std_slice`', True),
    r'std_fp_smult_pipe|std_fp_s?div_pipe': Form('a pipe at twice the width with shifts before or behind it, and signs apart'),
    r'std_float_const': Form('`std_const` with the last number: the bits of the constant', True),
    r'undef': Form('`std_const` with a value that nobody looks at, as 0', True),
    r'dyn_mem_d[1-4]': Form('`seq_mem` of the same numbers', True),
    r'init_one_reg': Form('`std_reg`, and a group that writes 1 first'),
    r'std_bus|std_skid_buffer': Form('registers'),
    r'std_popcount|std_sqrt|std_fp_sqrt': Form('a component of your own that computes it'),
}


def of_primitive(name):
    """What stands for a primitive of another library; None where this does not know it."""
    return next((form for pattern, form in PRIMITIVES.items() if re.fullmatch(pattern, name)), None)


def told(form):
    done = '; `tools/calyx port` does it' if form.is_ported else ''
    return f'{form.write}{done} ({PAGE})'
