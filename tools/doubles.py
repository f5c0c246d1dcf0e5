#!/usr/bin/env python3
"""Lists what stands to the letter in two crates or more: the statements of lemmas, and definitions with their bodies.

    tools/doubles.py            counts them, and lists those that are not local to a proof
    tools/doubles.py --local    lists those that are local too: in a `where`, or in a module with parameters

A statement is the type of a lemma of specs/ or proofs/: a declaration whose type names what it is of, as `(n : ℕ) → ..` does, or has an equation. All other
declarations are definitions, which are compared with their bodies. What stands in one crate is not compared, nor are statements of less than forty characters.
"""
import glob
import os
import re
import sys
from collections import defaultdict
from dataclasses import dataclass

CRATES = os.path.join(os.path.dirname(os.path.abspath(__file__)), '..', 'crates')
DECLARED = re.compile(r'^( {0,4})((?:abbrev )?(?:pub )?)([^\s:()]+) : (.*)$')
LEAST = 40


@dataclass
class Declaration:
    """A name with its type and its body, and where it stands."""
    crate: str
    place: str
    name: str
    type: str
    body: str
    is_local: bool


def continued(lines, at, indent):
    """The lines from one on that are indented further, and the number of the first that is not."""
    taken = []
    while at < len(lines) and lines[at].startswith(' ' * (indent + 2)) and lines[at].strip():
        taken.append(lines[at].strip())
        at += 1
    return taken, at


def body_of(lines, at, indent, name):
    """The clauses of a name, which stand behind its type."""
    taken = []
    while at < len(lines) and lines[at].startswith(' ' * indent + name + ' '):
        more, after = continued(lines, at + 1, indent)
        taken += [lines[at].strip(), *more]
        at = after
    return '\n'.join(taken).replace(name, '@')


def declarations(path):
    """Those of a file."""
    with open(path, encoding='utf-8') as file:
        lines = file.read().split('\n')
    crate = os.path.relpath(path, CRATES).split(os.sep)[0]
    for at, line in enumerate(lines):
        found = DECLARED.match(line)
        if found:
            indent, name = len(found[1]), found[3]
            more, after = continued(lines, at + 1, indent)
            yield Declaration(crate, f'{os.path.relpath(path, CRATES)}:{at + 1}', name, ' '.join([found[4], *more]), body_of(lines, after, indent, name), indent > 0)


def doubled(items, key):
    """Lists of those with one key, where they stand in two crates."""
    by_key = defaultdict(list)
    for item in items:
        by_key[key(item)].append(item)
    return [same for same in by_key.values() if len({item.crate for item in same}) > 1]


def is_statement(declaration):
    """Whether it is a lemma: not a function or a type."""
    is_type = declaration.type.split('→')[-1].strip().startswith('Type')
    return not is_type and ('≡' in declaration.type or re.search(r'\([^()]* : [^()]*\) →', declaration.type) is not None)


def told(title, doubles, with_local):
    """Prints how many there are, and those that are to be listed."""
    shown = [same for same in doubles if with_local or len({item.crate for item in same if not item.is_local}) > 1]
    print(f'{title}: {len(doubles)} stand in two crates or more, {len(shown)} listed')
    for same in shown:
        print(f'  {same[0].type[:150]}')
        for item in same:
            print(f'    {item.place} {item.name}{" (local)" if item.is_local else ""}')


def main():
    if sys.argv[1:] not in ([], ['--local']):
        sys.exit(__doc__.strip())
    found = [d for folder in ('specs', 'proofs') for path in sorted(glob.glob(f'{CRATES}/*/{folder}/**/*.antt', recursive=True)) for d in declarations(path)]
    statements = [d for d in found if is_statement(d) and len(d.type) >= LEAST]
    definitions = [d for d in found if not is_statement(d) and '→' in d.type and d.body]
    told('statements', doubled(statements, lambda d: d.type), bool(sys.argv[1:]))
    told('definitions', doubled(definitions, lambda d: (d.type, d.body)), bool(sys.argv[1:]))


if __name__ == '__main__':
    main()
