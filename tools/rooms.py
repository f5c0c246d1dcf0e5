#!/usr/bin/env python3
"""Writes the columns of types and files of docs/MAP.md: of each crate the types of its src/, those that it speaks of most first, behind them
those of its definitions up to sixteen in all (twelve of definitions at least), and the files of src/ and specs/.

    tools/rooms.py            writes them
    tools/rooms.py --check    looks that they are there
"""
import os
import re
import sys

import written

ROOT = os.path.join(os.path.dirname(os.path.abspath(__file__)), '..')
ROW = re.compile(r'^\| `(\w+)` \| ([^|]*) \| [^|]* \| [^|]* \| [^|]* \|$')
CODE = re.compile(r'^\s*(?:pub(?:\([a-z]+\))? )?(?:struct|enum|trait) (\w+)', re.M)
RECORDS = re.compile(r'^\s*pub (?:record|data) (\w+)', re.M)
CLAIMS = re.compile(r'^\s*abbrev pub ([A-Z]\w+) :.*Type 0$', re.M)


def read(crate, folder, ending):
    """The files of a folder of a crate by their names without the ending, and all their text."""
    names, texts = [], []
    for base, folders, files in os.walk(os.path.join(ROOT, 'crates', crate, folder)):
        folders.sort()
        for name in sorted(files):
            if name.endswith(ending):
                names.append(name[:-len(ending)])
                with open(os.path.join(base, name), encoding='utf-8') as file:
                    texts.append(file.read())
    return names, ''.join(texts)


def by_use(names, text):
    """Each name once, that which the text has most often first."""
    return sorted(dict.fromkeys(names), key=lambda name: -len(re.findall(rf'\b{name}\b', text)))


def row(crate, room):
    """The line of a crate."""
    files, code = read(crate, 'src', '.rt')
    pages, specs = read(crate, 'specs', '.antt')
    types = by_use(CODE.findall(code), code)
    defined = [name for name in by_use(RECORDS.findall(specs) + CLAIMS.findall(specs), specs) if name not in types]
    columns = [
        [f'`{name}`' for name in types + defined[:max(12, 16 - len(types))]],
        [name for name in files if name not in ('lib', 'main')],
        [name for name in pages if name != 'Lib'],
    ]
    return f'| `{crate}` | {room} | ' + ' | '.join(', '.join(column) or 'none' for column in columns) + ' |'


def page(text):
    """The page with the line of each crate written anew."""
    lines = text.split('\n')
    return '\n'.join(row(found[1], found[2]) if found else line for found, line in zip(map(ROW.match, lines), lines))


if __name__ == '__main__':
    sys.exit(written.keep('MAP.md', 'the types and files of each crate', 'rooms.py', page))
