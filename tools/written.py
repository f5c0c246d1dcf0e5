"""Pages of docs/ of which a script writes a part."""
import os
import sys

DOCS = os.path.join(os.path.dirname(os.path.abspath(__file__)), '..', 'docs')


def keep(name, part, script, make):
    """Writes a page as `make` makes it of its text; with --check looks that it stands so. The status of the script."""
    path = os.path.join(DOCS, name)
    with open(path, encoding='utf-8') as file:
        text = file.read()
    made = make(text)
    if sys.argv[1:] == ['--check']:
        print(f'docs/{name} has {part}' if made == text else f'docs/{name} lacks {part}: run tools/{script}')
        return 0 if made == text else 1
    with open(path, 'w', encoding='utf-8') as file:
        file.write(made)
    return 0
