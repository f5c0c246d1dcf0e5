#!/usr/bin/env python3
"""Looks that each clause that README.md and docs/CLAIMS.md name is there, in the crate that they name, and each crate that a page names.

    bench/claims.py [ROOT]

ROOT is the top of the repository; the one that holds this script if left out. A table is read where its head is `| Claim | Crate | Carried by |`
or `| Crate | Claim | Carried by |`. The last column is a list parted by `;`, each part one of

    `name`: `clause`, `clause`       a function with these `ensures`, or a trait with these `ghost` clauses
    `name`                           a function with some `ensures`, or a trait, or a law or definition of specs/ or proofs/

and `Type::name` is a function of an impl or a trait of Type. Of several functions with one name one has to have the clause. Pages are README.md
and those of docs/, bench/ and examples/. The last line is 'N passed, M failed'; the status is 1 where one failed, or nothing was named.
"""
import glob
import os
import re
import sys

HEADS = {('Claim', 'Crate', 'Carried by'): (1, 2), ('Crate', 'Claim', 'Carried by'): (0, 2)}
PAGES = ('README.md', 'docs/CLAIMS.md')
NAMING = ('README.md', 'docs/*.md', 'bench/*.md', 'examples/*.md')
ITEM = re.compile(r'^[ \t]*(?:pub(?:\([a-z]+\))?[ \t]+)?(?:(fn|trait)[ \t]+(\w+)|(impl)\b([^{]*)\{)', re.M)
CLAUSE = re.compile(r'\bensures[ \t]+(\w+)[ \t]*\{|\bghost[ \t]+(\w+)[ \t]*[:=]')
LAW = re.compile(r'^[ \t]*(?:abbrev[ \t]+)?pub[ \t]+(?:record[ \t]+|data[ \t]+)?([^\s:({]+)', re.M)


def texts(folder, ending):
    for at, _, files in sorted(os.walk(folder, followlinks=True)):
        for name in sorted(files):
            if name.endswith(ending):
                with open(os.path.join(at, name), encoding='utf-8') as file:
                    yield file.read()


class Crate:
    """The clauses of each function and trait of a crate by its name and by its owner's and its name, and the names of its laws."""

    def __init__(self, folder):
        self.clauses = {}
        self.is_there = os.path.isdir(folder)
        for text in texts(f'{folder}/src', '.rt'):
            self.read(re.sub(r'^[ \t]*//.*$', '', text, flags=re.M))
        laws = [text for part in ('specs', 'proofs') for text in texts(f'{folder}/{part}', '.antt')]
        self.laws = {name for text in laws for name in LAW.findall(text)}

    def read(self, text):
        owner, found = '', list(ITEM.finditer(text))
        for item, after in zip(found, [*found[1:], None]):
            word, name, is_impl, of = item.groups()
            body = text[item.end() : after.start() if after else len(text)]
            clauses = {a or b for a, b in CLAUSE.findall(body)}
            if re.search(r'\bensures[ \t]*\{', body):
                clauses.add('')
            if is_impl or word == 'trait':
                owner = of if is_impl else name
            else:
                owner = owner if item.group()[0] in ' \t' else ''
                self.clauses.setdefault(name, []).append((owner, clauses))
            # what a trait and an impl promise, and their functions, is told of the trait and of the type
            for one in re.findall(r'[A-Z]\w+', owner):
                self.clauses.setdefault(one, []).append((owner, clauses | ({''} if word == 'trait' else set())))

    def lacks(self, name, clauses):
        """Why a contract is not there, or None."""
        owner, _, own = name.rpartition('::')
        found = [it for of, it in self.clauses.get(own, []) if re.search(rf'\b{owner}\b', of)] if owner else [it for _, it in self.clauses.get(own, [])]
        if not clauses:
            return None if own in self.laws or any(found) else f'no contract, law or definition {name}'
        if not found:
            return f'no function or trait {name}'
        lost = [it for it in clauses if not any(it in one for one in found)]
        return f'{name} has no clause {", ".join(lost)}' if lost else None


def named(page):
    """The crates and contracts that the tables of a page name, with the number of the line."""
    places = None
    for number, line in enumerate(page.split('\n'), 1):
        cells = tuple(it.strip() for it in line.strip().strip('|').split(' | ')) if line.startswith('|') else ()
        if not cells:
            places = None
        elif cells in HEADS:
            places = HEADS[cells]
        elif places and set(''.join(cells)) - set('-| :'):
            crate, contracts = (cells[at] for at in places)
            for part in contracts.split(';'):
                words = re.findall(r'`([^`]+)`', part)
                yield number, crate.strip('`'), words[0] if words else '', words[1:]


def unknown_crates(root):
    """The crates that the prose of the pages names and that are not there, with the page."""
    for pattern in NAMING:
        for page in sorted(glob.glob(f'{root}/{pattern}')):
            with open(page, encoding='utf-8') as file:
                prose = re.sub(r'^```.*?^```$', '', file.read(), flags=re.M | re.S)
            names = set(re.findall(r'\bcx_[a-z_]+\b|\bcalyx_cli\b', prose))
            yield from ((os.path.relpath(page, root), name) for name in sorted(names) if not os.path.isdir(f'{root}/crates/{name}'))


def main():
    root = sys.argv[1] if sys.argv[1:] else os.path.join(os.path.dirname(os.path.abspath(__file__)), '..')
    crates, passed, failed = {}, 0, 0
    for name in PAGES:
        with open(f'{root}/{name}', encoding='utf-8') as file:
            page = file.read()
        for line, crate, contract, clauses in named(page):
            if crate not in crates:
                crates[crate] = Crate(f'{root}/crates/{crate}')
            lack = crates[crate].lacks(contract, clauses) if crates[crate].is_there else 'no such crate'
            passed, failed = passed + (lack is None), failed + (lack is not None)
            if lack:
                print(f'{name}:{line}: {crate}: {lack}')
    for page, name in unknown_crates(root):
        print(f'{page}: there is no crate {name}')
        failed += 1
    print(f'{passed} passed, {failed} failed')
    return 1 if failed or not passed else 0


if __name__ == '__main__':
    sys.exit(main())
