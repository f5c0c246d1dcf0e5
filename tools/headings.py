#!/usr/bin/env python3
"""Writes the list of the headings of docs/DECISIONS.md at its top.

    tools/headings.py            writes it
    tools/headings.py --check    looks that it is there
"""
import re
import sys

import written

BEGIN, END = '<!-- headings: written by tools/headings.py -->\n', '<!-- the end of the headings -->\n'


def anchor(heading):
    """As pages of git hosts name a heading."""
    return re.sub(r'[^\w\- ]', '', heading.lower()).replace(' ', '-')


def listed(text):
    """The headings of the second and third level, as a list of two levels."""
    lines = []
    for marks, heading in re.findall(r'^(##|###) (.*)$', text, flags=re.M):
        lines.append(f'{"- " if marks == "##" else "  - "}[{heading}](#{anchor(heading)})\n')
    return ''.join(lines)


def page(text):
    """The page with the list of its headings at its top."""
    before, _, rest = text.partition(BEGIN)
    _, _, after = rest.partition(END)
    if not rest:
        at = text.index('\n## ')
        before, after = text[:at] + '\n', text[at:]
    return before + BEGIN + listed(after) + END + after


if __name__ == '__main__':
    sys.exit(written.keep('DECISIONS.md', 'the list of its headings', 'headings.py', page))
