"""Messages for people: `FILE:LINE:COLUMN: error: ..`, the line of the source with carets, and notes. Colours stand on a terminal alone."""
import os
import sys
import textwrap
from typing import NamedTuple

COLOURS = {'error': '1;31', 'warning': '1;35', 'note': '1;36', 'place': '1', 'caret': '1;32', 'to mend it': '1;32', 'rule': '1;36'}
COLUMNS = 150


def has_colour(stream):
    return stream.isatty() and 'NO_COLOR' not in os.environ and os.environ.get('TERM') != 'dumb'


def painted(text, colour, stream):
    return f'\x1b[{COLOURS[colour]}m{text}\x1b[0m' if has_colour(stream) else text


class Message(NamedTuple):
    """What is said: where, what, and notes, as `show` takes them."""

    span: object
    text: str
    notes: list = []


class Span(NamedTuple):
    """Where something stands: a line, a column, and how many columns it takes."""

    line: int
    column: int
    length: int = 1


def span_of(first, last=None):
    """From one token to another of the same line."""
    last = last if last and last.line == first.line else first
    return Span(first.line, first.column, max(last.end - first.at, 1))


class Source:
    """The lines of a file, as bytes in latin-1."""

    def __init__(self, path, text):
        self.path, self.lines = path, text.split('\n')

    def line(self, number):
        return self.lines[number - 1].rstrip('\r') if 0 < number <= len(self.lines) else ''


def readable(text):
    """Bytes that were read as latin-1, as UTF-8 where they are."""
    return text.encode('latin-1', 'replace').decode('utf-8', 'replace')


def excerpt(source, span, stream):
    """The line of the source, with carets below it."""
    text = source.line(span.line)
    before, under = text[:span.column - 1], text[span.column - 1:span.column - 1 + span.length]
    blank = ''.join('\t' if letter == '\t' else ' ' for letter in readable(before))
    carets = '^' * max(len(readable(under)), 1)
    width = max(len(str(span.line)), 4)
    yield f' {span.line:>{width}} | {readable(text)}'
    yield f' {"":>{width}} | {blank}{painted(carets, "caret", stream)}'


def headed(word, text, stream):
    """A note below a message, its lines cut at a width."""
    folded = textwrap.wrap(f'{word}: {text}', COLUMNS - 2, break_long_words=False, break_on_hyphens=False) or ['']
    yield '  ' + folded[0].replace(f'{word}:', painted(f'{word}:', word, stream) if word in COLOURS else f'{word}:', 1)
    yield from (f'    {line}' for line in folded[1:])


def show(source, span, kind, text, notes=(), stream=None):
    """Prints a message. `notes` are pairs of a word and a text, or of a Span and a text: another place of the source."""
    stream = stream or sys.stderr
    place = f'{source.path}:{span.line}:{span.column}:' if span else f'{source.path}:'
    lines = [f'{painted(place, "place", stream)} {painted(kind + ":", kind, stream)} {text}']
    lines += excerpt(source, span, stream) if span else []
    for word, told in notes:
        if isinstance(word, Span):
            lines += headed('note', f'line {word.line}: {told}' if told else f'line {word.line}', stream)
            lines += excerpt(source, word, stream)
        else:
            lines += headed(word, told, stream)
    print('\n'.join(lines), file=stream)
