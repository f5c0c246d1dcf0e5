"""What the tools are given: their words, their files, and a data file that has to be as `interp` takes it."""
import json
import math
import os
import re
import sys


def words(usage, least, most):
    """The words of the command line; what a tool says of itself where there are too few or too many."""
    given = sys.argv[1:]
    if not least <= len(given) <= most:
        sys.exit(usage.strip())
    return given


def text_of(path, encoding='utf-8'):
    try:
        with open(path, encoding=encoding) as file:
            return file.read()
    except (OSError, UnicodeError) as why:
        sys.exit(f'{os.path.basename(sys.argv[0])}: {path} could not be read: {why}')


def cycles(usage, more, otherwise):
    """The number of cycles, where it is given as the last word."""
    if not more:
        return otherwise
    if not re.fullmatch('[0-9]+', more[0]):
        sys.exit(usage.strip())
    return int(more[0])


class Other:
    """A number of a data file that is no integer of 64 bits: no word, and no width."""


def number(text):
    if math.isinf(float(text)):
        raise ValueError(text)
    whole = text != '-0' and re.fullmatch('-?[0-9]+', text) and -(1 << 63) <= int(text) < 1 << 64
    return int(text) if whole else Other()


def no_number(text):
    raise ValueError(text)


def is_number(value):
    return isinstance(value, (int, Other)) and not isinstance(value, bool)


def externals(text):
    """Of each external memory of a Verilog text: its name, its instance, its width and its sizes."""
    for line in re.findall(r'^// external (.*)$', text, flags=re.M):
        name, instance, width, *sizes = line.split(' ')
        yield name, instance, int(width), [int(size) for size in sizes]


def has_shape(words, sizes):
    if not sizes:
        return is_number(words)
    return isinstance(words, list) and len(words) == sizes[0] and all(has_shape(part, sizes[1:]) for part in words)


def flat(words):
    return [word for part in words for word in flat(part)] if isinstance(words, list) else [words]


def fault(data, name, width, sizes):
    """What `interp` would say of a memory of the data file, as it says it; None where it takes it."""
    if name not in data:
        return f'missing {name}'
    memory = data[name]
    form = memory.get('format') if isinstance(memory, dict) else None
    if not isinstance(form, dict) or form.get('numeric_type') != 'bitnum' or not isinstance(form.get('is_signed'), bool) \
            or not is_number(form.get('width')) or 'data' not in memory:
        return f'bad-format {name}'
    if form['width'] != width:
        return f'width-differs {name}'
    if not has_shape(memory['data'], sizes):
        return f'bad-shape {name}'
    low, high = (-(1 << (width - 1)), 1 << (width - 1)) if form['is_signed'] else (0, 1 << width)
    return next((f'out-of-range {name} {at}' for at, word in enumerate(flat(memory['data'])) if isinstance(word, Other) or not low <= word < high), None)


def memories(path, text):
    """The data file, where it fits the external memories of a Verilog text; else it is told as `interp` tells it."""
    try:
        data = json.loads(text_of(path), parse_int=number, parse_float=number, parse_constant=no_number)
    except ValueError:
        data = None
    if not isinstance(data, dict):
        sys.exit('data not-json')
    for name, _, width, sizes in externals(text):
        told = fault(data, name, width, sizes)
        if told:
            sys.exit(f'data {told}')
    return data
