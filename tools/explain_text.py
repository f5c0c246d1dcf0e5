"""Explains refusals of the first stage: where a text is no design."""
import re

import cells
import forms
from messages import Message, Span, span_of

WORDS = ('import component cells wires group control comb static seq par if else while repeat invoke with ref').split()


def of_text(it):
    """What is told of a text that is not well formed."""
    return Message(*BY_RULE[it.rule](it))


def of_bad_byte(it):
    letter = it.source.line(it.place[0])[it.place[1] - 1:it.place[1]]
    before = it.source.line(it.place[0])[:it.place[1] - 1].rstrip()
    word = re.search(r'(metadata|sourceinfo)$', before)
    if letter == '#' and word:
        return it.span(), f'`{word.group(1)} #{{ .. }}#` is not read', [('to mend it', forms.told(forms.FORMS[word.group(1)]))]
    if letter == '#':
        return it.span(), 'a `#` begins nothing here', [('to mend it', 'a comment begins with `//`, or stands between `/*` and `*/`')]
    if letter == '+':
        return it.span(), 'a `+` begins nothing here: expressions stand in no assignment', [('to mend it', 'a cell of `std_add`, whose `left` and `right` are driven')]
    if letter == '-' and re.search(r'\w$', it.source.line(it.place[0])[:it.place[1] - 1]):
        return it.span(), 'a name has no `-`', [('to mend it', 'letters, digits and `_`; `tools/calyx port` puts a `_` there. A difference is a cell of `std_sub`')]
    if letter == '-':
        return it.span(), 'a `-` begins nothing here', [('to mend it', 'a cell of `std_sub`')]
    if not letter.isascii():
        return it.span(), 'a byte that is no ASCII begins nothing here', [('to mend it', 'names have the letters a to z and A to Z, digits and `_`; other letters may stand in comments alone')]
    return it.span(), f'`{letter}` begins nothing here', []


def of_open_comment(it):
    return Span(*it.place, 2), 'this comment has no end: the text ends in it', [('to mend it', 'end it with `*/`')]


def of_open_string(it):
    return it.span(), 'this string has no end on its line', [('to mend it', 'end it with `"` on the line on which it begins')]


def of_bad_literal(it):
    text = re.match(r"[\w']*", it.source.line(it.place[0])[it.place[1] - 1:]).group()
    literal = re.fullmatch(r"(\d+)'(.?)(\w*)", text)
    span = Span(*it.place, max(len(text), 1))
    if literal and literal.group(2) not in 'dbohx':
        return span, f"`{text}`: `{literal.group(2)}` is no base", [('to mend it', "`d` for decimal, `b` for binary, `o` for octal, `h` for hexadecimal digits: `8'd10`, `8'hff`")]
    if literal:
        return span, f'`{text}`: digits of the base `{literal.group(2)}` are wanted, or the value is too great', [('to mend it', "a literal is a width, `'`, a base and digits: `8'd10`, `8'hff`")]
    if re.match(r'[A-Za-z_]', text):
        return span, f'a name has at most 255 bytes, and this one has {len(text)}', []
    return span, f'`{text}` is no number below 2^64 and no literal', []


def of_too_deep(it):
    return it.span(), 'brackets and `!` of a guard, or blocks of control, are nested more than 64 deep here', []


def of_unexpected(it):
    unread = it.unread
    if it.design is not None:
        return of_form(it)
    token = unread.token
    if not token.text:
        return of_end(it)
    if token.place != it.place:
        return of_form_before(it)
    wanted = ' or '.join(unread.wanted)
    before = it.tokens[it.tokens.index(token) - 1] if token.at else None
    if token.text in WORDS and not wanted.startswith('`'):
        return it.span(), f'`{token.text}` is a word of the language, and {wanted} is wanted here', [('to mend it', f'take another name, as `{token.text}_`')]
    if re.fullmatch(r'\d+', token.text) and 'literal' in wanted:
        return it.span(), f'`{token.text}` has no width: a literal does', [('to mend it', f"`{width_for(it, token)}'d{token.text}`: a width, `'`, a base and digits")]
    if token.text == '=' and '`?`' in wanted:
        return it.span(), 'a second `=` in one assignment: in a guard equality is `==`', [('to mend it', '`a.in = b.out == 32\'d1 ? c.out;`')]
    if '`;`' in wanted and before:
        behind = Span(before.line, before.column + len(before.text))
        return behind, f'a `;` is missing here, behind `{before.text}`', [('note', f'so `{token.text}` in line {token.line}, column {token.column}, cannot stand where it does')]
    if '`,`' in wanted and before:
        return Span(before.line, before.column + len(before.text)), f'a `,` or a `)` is missing here, behind `{before.text}`', []
    return it.span(), f'{wanted} is wanted here, and `{token.text}` stands there', []


def width_for(it, token):
    """The width that an unsized literal would have, where the line tells it."""
    found = re.search(r'(\w+)\.(\w+)\s*=\s*$', it.source.line(token.line)[:token.column - 1])
    cell = re.search(rf'\b{found.group(1)}\s*=\s*(\w+)\(([\d,\s]*)\)', it.text) if found else None
    if cell:
        ports = cells.ports_of(cell.group(1), [int(number) for number in re.findall(r'\d+', cell.group(2))])
        return next((port.width for port in ports if port.name == found.group(2)), 32)
    return 32


def of_end(it):
    """The text ends too soon: brackets are still open."""
    opened = []
    for token in it.tokens:
        if token.text in ('{', '('):
            opened.append(token)
        elif token.text in ('}', ')') and opened:
            opened.pop()
    if not opened:
        return it.span(), f'the text ends here, and {" or ".join(it.unread.wanted)} is wanted', []
    last = [token for token in it.tokens if token.text][-1]
    lines = ', '.join(f'line {token.line}' for token in opened)
    many = f'{len(opened)} brackets that are' if len(opened) > 1 else f'a `{opened[0].text}` that is'
    text = f'the text ends here, with {many} still open, of {lines}'
    return Span(last.line, last.column + len(last.text)), text, [(span_of(opened[-1]), f'this `{opened[-1].text}` is still open')]


def of_form(it):
    """The tools read on where the program does not: a form of Calyx that is left out."""
    found = next((one for one in it.design.foreign if one.first.place <= it.place <= one.last.place and one.name in forms.FORMS), None)
    if found is None:
        text, notes = WORD_OF_FORM.get(it.token.text, (f'`{it.token.text}` goes on no sentence of the grammar here', []))
        return it.span(), text, notes
    return it.span(), f'a form of Calyx that is not read here: {found.name}', [('to mend it', forms.told(forms.FORMS[found.name]))]


WORD_OF_FORM = {
    'import': ('an `import` stands before all components', []),
    'while': ('there is no `static while`: static control has a length', [('to mend it', '`while` in dynamic control, or `static repeat`')]),
    'with': ('a `static if` has no `with`', [('to mend it', 'drive its port by continuous assignments of registers')]),
}


def of_form_before(it):
    """The tools stumble elsewhere than the program."""
    token = it.token
    word = token.text or 'the end of the text'
    return it.span(), f'`{word}` goes on no sentence of the grammar here', []


BY_RULE = {
    'bad-byte': of_bad_byte, 'open-comment': of_open_comment, 'open-string': of_open_string, 'bad-literal': of_bad_literal, 'unexpected': of_unexpected, 'too-deep': of_too_deep,
}
