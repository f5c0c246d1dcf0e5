#!/usr/bin/env python3
"""Looks that each name that a file of a crate takes from another module of this repository is a word of that module: what a merge of moved lemmas breaks
first, and what a check of a crate tells only when all below it are proved.

    tools/imports.py [CRATE..]    all crates, where none is named

It reads `use Rattle.CRATE.(specs|proofs).MODULE.{..}` of `.antt` and `.rt` files. A name that stands in the module in another sense is not seen, nor a name that
is used and not taken. Ends with 1 where it finds something.
"""
import glob
import os
import re
import sys

CRATES = os.path.join(os.path.dirname(os.path.abspath(__file__)), '..', 'crates')
TAKEN = re.compile(r'use Rattle\.(cx_\w+(?:\.[\w+-]+)+)\.\{([^}]*)\}')
MADE = ('.declared.', '.contracts.')


def module_text(module, texts):
    """The text of a module by its name, or None where it has no file."""
    if module not in texts:
        path = os.path.join(CRATES, *module.split('.')) + '.antt'
        texts[module] = open(path, encoding='utf-8').read() if os.path.exists(path) else None
    return texts[module]


def wanting(path, texts):
    """The names that a file takes and that are no word of their module."""
    with open(path, encoding='utf-8') as file:
        text = file.read()
    for module, names in TAKEN.findall(text):
        if any(part in module for part in MADE) or module.endswith(('.Goals', '.Given', '.TheLaws')):
            continue
        there = module_text(module, texts)
        if there is None:
            yield module, 'which has no file'
            continue
        for name in (taken.split(' as ')[0].strip() for taken in names.split(',')):
            if name and not re.search(r'(?<![\w-])' + re.escape(name) + r'(?![\w-])', there):
                yield module, name


def main():
    texts, found = {}, 0
    for crate in sys.argv[1:] or sorted(os.listdir(CRATES)):
        for path in sorted(glob.glob(f'{CRATES}/{crate}/**/*', recursive=True)):
            if path.endswith(('.antt', '.rt')) and f'{os.sep}out{os.sep}' not in path:
                for module, name in wanting(path, texts):
                    print(f'{os.path.relpath(path, CRATES)}: {module}: {name}')
                    found += 1
    print(f'{found} names are wanting')
    return 1 if found else 0


if __name__ == '__main__':
    sys.exit(main())
