"""The rules of refusal and how to mend a break of each, as docs/RULES.md tells them."""
import functools
import os
import re

PAGE = os.path.join(os.path.dirname(os.path.abspath(__file__)), '..', 'docs', 'RULES.md')
FILES = {
    'not-json': 'the data file is no JSON object', 'missing': 'the data file has no object of this name for an external memory',
    'bad-format': 'of the object of a memory `data` or a part of `format` is not there, or not of its kind',
    'width-differs': '`format.width` is not the width of the memory', 'bad-shape': 'the lists have not the sizes of the memory, or hold what is no number',
    'out-of-range': 'a word is no integer that the width holds',
}


def rows(text):
    """The cells of the rows of all tables."""
    for line in text.split('\n'):
        if line.startswith('| '):
            yield [cell.strip() for cell in line.strip().strip('|').split(' | ')]


@functools.cache
def page():
    with open(PAGE, encoding='utf-8') as file:
        return file.read()


@functools.cache
def rules():
    """Of each rule when a design breaks it, and its smallest design with what is told of it, where there is one."""
    head, _, _ = page().partition('## How to mend a break')
    found = {}
    for row in rows(head):
        name = re.fullmatch(r'`([a-z-]+)`', row[0])
        if name and len(row) == 4:
            found[name.group(1)] = row[1:]
    stage = re.search(r'`too-large` is a rule of `compile` and `instrument` alone, (.*?)\n\n', page(), flags=re.S)
    found['too-large'] = [' '.join(stage.group(1).split()), '', '']
    return found


@functools.cache
def mends():
    """Of each rule how to mend a break."""
    _, _, tail = page().partition('## How to mend a break')
    tail, _, _ = tail.partition('## What causes a fault')
    found = {}
    for row in rows(tail):
        for name in re.findall(r'`([a-z-]+)`', row[0]):
            found.setdefault(name, row[-1])
    return found


@functools.cache
def faults():
    """Of each kind of fault what mostly causes it."""
    _, _, tail = page().partition('## What causes a fault')
    return {row[0].strip('`'): row[1] for row in rows(tail) if re.fullmatch(r'`[a-z]+`', row[0])}


def plain(text):
    """Without the names of definitions that stand in brackets at the end."""
    return re.sub(r' \((?:`\w+`(?:, )?)+\)$', '', text)


def told(name):
    """What a rule, a kind of fault or a fault of a data file is, in lines; nothing of what is none."""
    if name in rules():
        when, smallest, where = rules()[name]
        lines = [f'{name}: a design breaks this rule where {plain(when)}.' if name != 'too-large' else f'{name}: a rule of `compile` and `instrument` alone, {when}']
        if smallest:
            lines.append(f'  smallest: {smallest}')
            lines.append(f'  told: {where}')
        if name in mends():
            lines.append(f'  to mend it: {mends()[name]}')
        return lines
    if name in faults():
        return [f'{name}: a fault of a run. Mostly caused by: {faults()[name]}']
    if name == 'more':
        return ['more: the run had not ended after so many turns: give a greater number, or look why a group or a loop never ends (tools/calyx run shows what goes on)']
    if name in FILES:
        return [f'{name}: a fault of the data file: {FILES[name]}. docs/LANGUAGE.md, "The data file and the dump".']
    return []


def names():
    return [*rules(), *faults(), 'more', *FILES]
