"""What tools/calyx port writes in the place of a primitive of another library: a primitive that is there, with further cells and continuous assignments."""
import dataclasses


@dataclasses.dataclass
class Recipe:
    """`{x}` is the name of the cell. `own` is its primitive now, `cells` are further ones; an input that is driven goes to the ports of `moves`, an output that is read
    comes from that of `reads`; `always` are continuous assignments."""

    own: str
    cells: dict = dataclasses.field(default_factory=dict)
    moves: dict = dataclasses.field(default_factory=dict)
    reads: dict = dataclasses.field(default_factory=dict)
    always: list = dataclasses.field(default_factory=list)


def signext(low, high):
    """A word whose sign bit is turned, less the weight of that bit."""
    sign = f"{high}'d{1 << (low - 1)}"
    return Recipe(f'std_sub({high})', {'pad': f'std_pad({low}, {high})', 'turn': f'std_xor({high})'}, {'in': ['{x}_pad.in']}, {},
                  ['{x}_turn.left = {x}_pad.out;', '{x}_turn.right = ' + sign + ';', '{x}.left = {x}_turn.out;', '{x}.right = ' + sign + ';'])


def bit_slice(width, first, last, out):
    if last - first + 1 != out:
        return None
    return Recipe(f'std_slice({width}, {out})', {'down': f'std_rsh({width})'}, {'in': ['{x}_down.left']}, {},
                  ['{x}_down.right = ' + f"{width}'d{first};", '{x}.in = {x}_down.out;'])


def cat(left, right, out):
    return Recipe(f'std_or({out})', {'left': f'std_pad({left}, {out})', 'right': f'std_pad({right}, {out})', 'up': f'std_lsh({out})'},
                  {'left': ['{x}_left.in'], 'right': ['{x}_right.in']}, {},
                  ['{x}_up.left = {x}_left.out;', '{x}_up.right = ' + f"{out}'d{right};", '{x}.left = {x}_up.out;', '{x}.right = {x}_right.out;'])


def srsh(width):
    """Both the word with its sign bit turned and that bit go down; their difference is the word with its sign kept. A shift of the width or more is one of the width less 1."""
    sign, most = f"{width}'d{1 << (width - 1)}", f"{width}'d{width - 1}"
    return Recipe(f'std_sub({width})',
                  {'far': f'std_gt({width})', 'by': f'std_mux({width})', 'turn': f'std_xor({width})', 'word': f'std_rsh({width})', 'sign': f'std_rsh({width})'},
                  {'left': ['{x}_turn.left'], 'right': ['{x}_far.left', '{x}_by.fal']}, {},
                  ['{x}_far.right = ' + most + ';', '{x}_by.cond = {x}_far.out;', '{x}_by.tru = ' + most + ';', '{x}_turn.right = ' + sign + ';',
                   '{x}_word.left = {x}_turn.out;', '{x}_word.right = {x}_by.out;', '{x}_sign.left = ' + sign + ';', '{x}_sign.right = {x}_by.out;',
                   '{x}.left = {x}_word.out;', '{x}.right = {x}_sign.out;'])


def fixed_product(width, _, fraction):
    """A product at twice the width, without the bits behind the point that it has too many."""
    twice = 2 * width
    if twice > 128:
        return None
    return Recipe(f'std_mult_pipe({twice})',
                  {'left': f'std_pad({width}, {twice})', 'right': f'std_pad({width}, {twice})', 'down': f'std_rsh({twice})', 'low': f'std_slice({twice}, {width})'},
                  {'left': ['{x}_left.in'], 'right': ['{x}_right.in']}, {'out': '{x}_low.out'},
                  ['{x}.left = {x}_left.out;', '{x}.right = {x}_right.out;', '{x}_down.left = {x}.out;', '{x}_down.right = ' + f"{twice}'d{fraction};", '{x}_low.in = {x}_down.out;'])


def first(name):
    """A primitive of the same ports, of the first number."""
    return lambda width, *_: Recipe(f'{name}({width})')


def same(name):
    """A primitive of the same ports and numbers."""
    return lambda *numbers: Recipe(f'{name}({", ".join(map(str, numbers))})')


def divided(out):
    return lambda width: Recipe(f'std_div_pipe({width})', reads={'out': '{x}.' + out})


RECIPES = {
    'std_signext': signext, 'std_bit_slice': bit_slice, 'std_cat': cat, 'std_srsh': srsh, 'std_fp_mult_pipe': fixed_product,
    'std_sadd': first('std_add'), 'std_fp_add': first('std_add'), 'std_fp_sadd': first('std_add'), 'std_ssub': first('std_sub'), 'std_fp_sub': first('std_sub'),
    'std_fp_ssub': first('std_sub'), 'std_slsh': first('std_lsh'),
    **{name: first('std_mult_pipe') for name in ('std_smult_pipe', 'std_umult_pipe', 'std_mult_u_pipe', 'std_multu_pipe', 'std_mults_pipe')},
    'std_udiv_pipe': divided('out_quotient'), 'std_divu_pipe': divided('out_quotient'), 'std_remu_pipe': divided('out_remainder'),
    **{f'std_fp_{sign}{name}': first(f'std_{sign}{name}') for name in ('gt', 'lt', 'eq') for sign in ('', 's')},
    'std_float_const': lambda _, width, value: Recipe(f'std_const({width}, {value})'), 'undef': lambda width: Recipe(f'std_const({width}, 0)'),
    **{f'dyn_mem_d{sizes}': same(f'seq_mem_d{sizes}') for sizes in range(1, 5)},
}


def recipe_of(kind, numbers):
    """The recipe of a primitive; None where there is none, or none for these numbers."""
    if kind not in RECIPES:
        return None
    try:
        return RECIPES[kind](*numbers)
    except TypeError:
        return None
