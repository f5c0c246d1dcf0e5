"""Explains what calyx_cli tells of a data file: `data not-json`, `data KIND NAME` and `data out-of-range NAME INDEX`."""
import json
import re

import cells
import messages
from messages import Message, Span

NUMBER = re.compile(r'-?\d+(?:\.\d+)?(?:[eE][+-]?\d+)?|-?[A-Za-z]\w*')


def span_at(text, at, length=1):
    """The place of an offset."""
    line = text.count('\n', 0, at) + 1
    return Span(line, at - (text.rfind('\n', 0, at) + 1) + 1, length)


class Placed:
    """A value of a JSON text with the offset at which it stands: `parts` are pairs of a key's offset and a Placed by key, or a list of Placed."""

    def __init__(self, at, end, value, parts=None):
        self.at, self.end, self.value, self.parts = at, end, value, parts

    def words(self):
        """The numbers of lists within lists, in order."""
        if isinstance(self.parts, list):
            for part in self.parts:
                yield from part.words()
        else:
            yield self


def skip(text, at):
    return re.compile(r'\s*').match(text, at).end()


def placed(text, at=0):
    """Reads a JSON value that is known to be one."""
    at = skip(text, at)
    if text[at] in '{[':
        return container(text, at)
    value, end = json.JSONDecoder().raw_decode(text, at)
    return Placed(at, end, value)


def container(text, start):
    is_object = text[start] == '{'
    at, parts = skip(text, start + 1), {} if is_object else []
    while text[at] not in '}]':
        if is_object:
            key_at = at
            key, at = json.JSONDecoder().raw_decode(text, at)
            part = placed(text, skip(text, at) + 1)
            parts[key] = key_at, part
        else:
            part = placed(text, at)
            parts.append(part)
        at = skip(text, part.end)
        at = skip(text, at + 1) if text[at] == ',' else at
    return Placed(start, at + 1, None, parts)


def not_json(text):
    """Why a text is no JSON object, with its place."""
    try:
        found = json.loads(text, parse_constant=no_number)
    except json.JSONDecodeError as why:
        return broken(text, why)
    except ValueError as why:
        at = text.find(str(why))
        return Message(span_at(text, at, len(str(why))), f'`{why}` is no number of JSON', [])
    if not isinstance(found, dict):
        return Message(span_at(text, skip(text, 0)), f'the file holds a {type(found).__name__}, and a JSON object `{{ .. }}` is wanted',
                       [('to mend it', '`{ "mem": { "data": [..], "format": { "numeric_type": "bitnum", "is_signed": false, "width": 32 } } }`')])
    return Message(None, 'the file is no JSON object: a name stands twice in an object, or it is nested too deep', [])


def no_number(text):
    raise ValueError(text)


def broken(text, why):
    at = min(why.pos, max(len(text) - 1, 0))
    before = text[:why.pos].rstrip()
    letter = text[why.pos:why.pos + 1]
    if not text[why.pos:].strip():
        depth = text.count('{') - text.count('}') + text.count('[') - text.count(']')
        end = max(len(text.rstrip()) - 1, 0)
        return Message(span_at(text, end), f'the text ends here, with {max(depth, 1)} bracket{"s" if depth > 1 else ""} still open', [])
    if letter in '}]' and before.endswith(','):
        return Message(span_at(text, len(before) - 1), f'a `,` stands before `{letter}`', [('to mend it', 'cut the comma: none stands behind the last')])
    if before.endswith(',') and 'property name' in why.msg and letter == '}':
        return Message(span_at(text, len(before) - 1), 'a `,` stands before `}`', [('to mend it', 'cut the comma: none stands behind the last')])
    if letter == "'":
        return Message(span_at(text, at), "a string stands between `\"`, not between `'`", [('to mend it', 'a dict that Python printed is no JSON: write it by `json.dump`')])
    word = re.match(r'True|False|None|\.\d+|0[xb]\w+|0\d+', text[why.pos:])
    if word:
        return Message(span_at(text, at, len(word.group())), f'`{word.group()}` is no word of JSON', [('to mend it', '`true`, `false`, and decimal numbers without a zero before others')])
    if text[why.pos:why.pos + 2] in ('//', '/*') or letter == '#':
        return Message(span_at(text, at), 'JSON has no comments', [('to mend it', 'cut it')])
    if 'delimiter' in why.msg and why.msg.startswith("Expecting ','"):
        end = len(before) - 1
        return Message(Span(span_at(text, end).line, span_at(text, end).column + 1), f'a `,` is missing here, or `{letter}` is too much', [])
    told = {'Expecting property name enclosed in double quotes': 'a name between `"` is wanted here', "Expecting ':' delimiter": 'a `:` is wanted here', 'Expecting value': 'a value is wanted here',
            'Extra data': 'the object has ended, and this stands behind it'}
    return Message(span_at(text, at), f'{told.get(why.msg, why.msg)}, and `{letter}` stands there', [])


def shape_of(part):
    """The sizes of lists within lists, as their first elements have them."""
    sizes = []
    while isinstance(part.parts, list):
        sizes.append(len(part.parts))
        if not part.parts:
            break
        part = part.parts[0]
    return sizes


def misshapen(part, sizes, way=''):
    """The first list or word that has not the size that is wanted, with what is wrong; None where all have."""
    if not sizes:
        if isinstance(part.parts, (list, dict)) or isinstance(part.value, (str, bool)) or part.value is None:
            what = 'a list' if isinstance(part.parts, list) else 'an object' if part.parts is not None else f'`{json.dumps(part.value)}`'
            return part, f'{what} stands where a word does{way}'
        return None
    if not isinstance(part.parts, list):
        return part, f'a list of {sizes[0]} is wanted here{way}'
    if len(part.parts) != sizes[0]:
        return part, f'this list has {len(part.parts)}, and {sizes[0]} are wanted{way}'
    return next((wrong for at, inner in enumerate(part.parts) if (wrong := misshapen(inner, sizes[1:], f' (at index {at}{way and " of" + way})'))), None)


class Told:
    """What is told of a memory: its kind, its name and index; the text, its JSON, and the cell of the design."""

    def __init__(self, text, kind, name, index, cell):
        self.text, self.kind, self.name, self.index, self.cell = text, kind, name, index, cell
        self.whole = placed(text)
        self.key_at, self.memory = self.whole.parts.get(name, (None, None))
        self.fields = self.memory.parts if self.memory and isinstance(self.memory.parts, dict) else {}
        self.format = self.fields['format'][1].parts if 'format' in self.fields and isinstance(self.fields['format'][1].parts, dict) else {}

    def key(self):
        return span_at(self.text, self.key_at, len(json.dumps(self.name)))

    def of(self, part):
        return span_at(self.text, part.at, min(part.end - part.at, 60))

    def example(self):
        width = self.cell.numbers[0] if self.cell else 32
        return f'`"{self.name}": {{ "data": [..], "format": {{ "numeric_type": "bitnum", "is_signed": false, "width": {width} }} }}`'


def of_missing(it):
    names = ', '.join(f'`{name}`' for name in it.whole.parts) or 'no memory'
    where = f' (line {it.cell.line} of the design: `@external {it.cell.name} = {it.cell.told()}`)' if it.cell else ''
    return Message(None, f'there is no memory `{it.name}`{where}; the file has {names}', [('to mend it', f'add {it.example()}, with {size_words(it.cell)}')])


def size_words(cell):
    if cell is None:
        return 'its words'
    sizes = cell.numbers[1:1 + cells.sizes_of(cell.kind)]
    return 'lists of ' + ' lists of '.join(map(str, sizes)) if len(sizes) > 1 else f'{sizes[0]} word{"s" if sizes[0] > 1 else ""}'


def of_format(it):
    if not isinstance(it.memory.parts, dict):
        return Message(it.of(it.memory), f'`{it.name}` is no object', [('to mend it', it.example())])
    for field in ('data', 'format'):
        if field not in it.fields:
            bitwidth = ' (`bitwidth` is of an older form of data files)' if 'bitwidth' in it.fields else ''
            return Message(it.key(), f'`{it.name}` has no `{field}`{bitwidth}', [('to mend it', it.example() + ('; `tools/calyx port` does it' if bitwidth else ''))])
    form = it.fields['format'][1]
    if not isinstance(form.parts, dict):
        return Message(it.of(form), '`format` is no object', [('to mend it', it.example())])
    for field in ('numeric_type', 'is_signed', 'width'):
        if field not in it.format:
            return Message(it.of(form), f'`format` has no `{field}`', [('to mend it', it.example())])
    kind = it.format['numeric_type'][1]
    if kind.value != 'bitnum':
        return Message(it.of(kind), f'`numeric_type` is {json.dumps(kind.value)}, and only `"bitnum"` is read',
                       [('to mend it', 'give the words as integers, with the bits behind the point in them: `tools/calyx port` turns `fixed_point` so')])
    signed = it.format['is_signed'][1]
    if not isinstance(signed.value, bool):
        return Message(it.of(signed), '`is_signed` is neither `true` nor `false`', [])
    return Message(it.of(it.format['width'][1]), '`width` is no integer', [])


def of_width(it):
    width = it.format['width'][1]
    note = [('note', f'line {it.cell.line} of the design: `{it.cell.name} = {it.cell.told()}`')] if it.cell else []
    return Message(it.of(width), f'`width` is {it.text[width.at:width.end]}, and the memory `{it.name}` has {it.cell.numbers[0] if it.cell else "another"}', note)


def of_shape(it):
    data = it.fields['data'][1]
    sizes = it.cell.numbers[1:1 + cells.sizes_of(it.cell.kind)] if it.cell else []
    part, why = misshapen(data, sizes) or (data, f'`{it.name}` has another shape')
    wanted = ' by '.join(map(str, sizes))
    found = ' by '.join(map(str, shape_of(data))) or 'no list'
    return Message(it.of(part), why, [('note', f'`{it.name}` is {wanted} in the design (line {it.cell.line}: `{it.cell.told()}`), and {found} here')] if it.cell else [])


def of_range(it):
    word = list(it.fields['data'][1].words())[it.index]
    width, signed = it.format['width'][1].value, it.format['is_signed'][1].value
    low, high = (-(1 << width - 1), (1 << width - 1) - 1) if signed else (0, (1 << width) - 1)
    told = it.text[word.at:word.end]
    notes = []
    if told.startswith('-') and not signed:
        notes = [('to mend it', '`"is_signed": true` where words are in two\'s complement')]
    elif not re.fullmatch(r'-?\d+', told):
        notes = [('to mend it', 'a word is an integer without a point, an exponent or -0')]
    return Message(it.of(word), f'{told} is no word of {width} bits {"with" if signed else "without"} a sign: {low} to {high}', [('note', f'it has index {it.index} of `{it.name}`, counted through all lists'), *notes])


BY_KIND = {'missing': of_missing, 'bad-format': of_format, 'width-differs': of_width, 'bad-shape': of_shape, 'out-of-range': of_range}


def refused(path, text, words, design, stream=None):
    """Prints the explanation of a line `data ..`, whose words behind the first are given."""
    kind, name, index = words[0], *[*words[1:], '', ''][:2]
    if kind == 'not-json':
        message = not_json(text)
    else:
        main = design.by_name.get('main') if design else None
        message = BY_KIND[kind](Told(text, kind, name, int(index or 0), main.cell(name) if main else None))
    messages.show(messages.Source(path, text), message.span, 'error', message.text, message.notes, stream)
