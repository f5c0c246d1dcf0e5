"""Rewrites forms of Calyx as it is written elsewhere, as far as that can be done by rule: `tools/calyx port`. It says what it did and what is left.

A design is read by tools/design.py, and only what is rewritten is changed; all else stays to the byte, comments too. A data file gets words that are integers.
"""
import json
import os
import re
import struct
import sys

import cells
import design as designs
import forms
import recipes


class Work:
    """The edits of a text, and what is told of them: `did` and `left` are pairs of a line and a text."""

    def __init__(self, path, text):
        self.path, self.text = path, text
        self.design = designs.read(text)
        self.edits, self.did, self.left = [], [], []

    def replace(self, start, end, text):
        self.edits.append((start, end, text))

    def cut(self, first, last):
        """Cuts from one token to another, with the line where nothing else stands on it."""
        start, end = first.at, last.end
        begin = self.text.rfind('\n', 0, start) + 1
        after = self.text.find('\n', end)
        after = len(self.text) if after < 0 else after + 1
        if not self.text[begin:start].strip() and not self.text[end:after].strip():
            start, end = begin, after
        self.replace(start, end, '')

    def written(self):
        text = self.text
        for start, end, new in reversed(sorted(self.edits, key=lambda edit: edit[0])):
            text = text[:start] + new + text[end:]
        return text

    def after(self, token):
        """The token behind one."""
        return self.design.tokens[self.design.tokens.index(token) + 1]

    def of(self, first, last):
        return self.text[first.at:last.end]


def fresh(part, name):
    """A name that no cell and no group of a component has."""
    taken = {cell.name for cell in part.cells} | set(part.groups)
    while name in taken:
        name += '_'
    return name


def foreign_forms(work):
    for form in work.design.foreign:
        if form.name in ('metadata', 'sourceinfo', 'extern', 'set attribute'):
            work.cut(form.first, form.last)
            work.did.append((form.first.line, f'cut {form.name}'))
        elif form.name == 'else if':
            work.replace(form.first.end, form.first.end, ' {')
            work.replace(form.last.end, form.last.end, ' }')
            work.did.append((form.first.line, '`else if` became `else { if .. }`'))
        elif form.name == 'static invoke':
            cut_static(work, form)
        elif form.name == 'length behind the name':
            move_length(work, form)
        elif form.name != 'invoke with':
            work.left.append((form.first.line, f'{form.name}: {forms.FORMS[form.name].write}'))


def cut_static(work, form):
    found = re.compile(r'\bstatic\s*(<\s*\d+\s*>)?\s*').search(work.text, form.first.at, form.last.end)
    work.replace(found.start(), found.end(), '')
    work.did.append((form.first.line, '`static invoke` became `invoke`: it takes as long as the component does, and one turn more'))


def move_length(work, form):
    found = re.compile(r'static(\s+group\s+\w+)\s*(<\s*\d+\s*>)').search(work.text, form.first.at, form.last.end)
    work.replace(found.start(), found.end(), f'static{found.group(2)}{found.group(1)}')
    work.did.append((form.first.line, 'the length of a static group stands before `group`'))


def invokes_with(work, part):
    """An invoke with a comb group becomes the group that it stands for, with the assignments of the comb group in it."""
    count = 0
    for it in part.control.all():
        comb = part.groups.get(it.comb)
        if it.kind != 'invoke' or comb is None:
            continue
        count += 1
        name, call = fresh(part, f'call_{it.name}' + (f'_{count}' if count > 1 else '')), part.groups[f'invoke {it.called}']
        inner = [work.of(assign.target.first, assign.last) for assign in comb.assigns] + [told(assign, call.name, name) for assign in call.assigns]
        group = '\n'.join([f'  group {name} {{', *(f'      {line}' for line in inner), '    }', '  '])
        work.replace(it.token.at, it.last.end, f'{name};')
        work.replace(part.wires_end.at, part.wires_end.at, group)
        work.did.append((it.line, f'`invoke .. with {it.comb}` became the group `{name}`'))


def told(assign, old, new):
    """An assignment as it is written, with the hole of another group."""
    guard = f'{written(assign.guard)} ? ' if assign.guard else ''
    return f'{assign.target.text} = {guard}{assign.source.text};'.replace(f'{old}[', f'{new}[')


def written(guard):
    if guard.kind == 'port':
        return guard.operands[0].text
    return f'!{written(guard.parts[0])}' if guard.kind == 'not' else ' & '.join(map(written, guard.parts))


def primitives(work, part):
    """Cells of primitives of another library."""
    for cell in part.cells:
        if cell.kind in cells.NAMES or cell.kind in work.design.by_name:
            continue
        recipe, form = recipes.recipe_of(cell.kind, cell.numbers), forms.of_primitive(cell.kind)
        if recipe is None:
            work.left.append((cell.line, f'`{cell.told()}`: {form.write if form else "a primitive that is not there"}'))
            continue
        names = {key: fresh(part, f'{cell.name}_{key}') for key in recipe.cells}

        def named(text, cell=cell, names=names):
            return re.sub(r'\{x\}_(\w+)', lambda found: names[found.group(1)], text).replace('{x}', cell.name)
        more = ' '.join(f'{names[key]} = {kind};' for key, kind in recipe.cells.items())
        tail = work.text[work.text.index('=', cell.token.end) + 1:cell.last.at]
        start = cell.last.at - len(tail)
        work.replace(start, cell.last.end, f' {recipe.own};' + (f' {more}' if more else ''))
        if recipe.always:
            work.replace(part.wires_end.at, part.wires_end.at, '  ' + '\n    '.join(map(named, recipe.always)) + '\n  ')
        uses(work, part, cell, {port: list(map(named, ports)) for port, ports in recipe.moves.items()}, {port: named(to) for port, to in recipe.reads.items()})
        work.did.append((cell.line, f'`{cell.kind}` became `{recipe.own}`' + (f' with {", ".join(recipe.cells.values())}' if recipe.cells else '')))


def uses(work, part, cell, moves, reads):
    """The assignments of a cell's inputs, and the reads of its outputs, go to other ports."""
    for group, assign in part.all_assigns():
        if group and group.call:
            continue
        if assign.target.cell == cell.name and assign.target.port in moves:
            rest = work.text[assign.target.last.end:assign.last.end]
            work.replace(assign.target.first.at, assign.last.end, ' '.join(f'{to}{rest}' for to in moves[assign.target.port]))
        for operand in assign.read():
            if operand.cell == cell.name and operand.port in reads:
                work.replace(operand.first.at, operand.last.end, reads[operand.port])


def older_memories(work, part):
    """A `seq_mem` with `read_en`, `read_done` and `write_done`."""
    for cell in part.cells:
        ports = {operand.port for _, assign in part.all_assigns() for operand in [assign.target, *assign.read()] if operand.cell == cell.name}
        if not cell.kind.startswith('seq_mem') or not ports & {'read_en', 'read_done', 'write_done'}:
            continue
        for group, assign in part.all_assigns():
            older_assign(work, group, assign, cell.name)
        work.did.append((cell.line, f'`{cell.name}`: `content_en` for each access, `write_en` for a write, and one `done`'))


def older_assign(work, group, assign, name):
    target = assign.target
    if target.cell == name and target.port == 'read_en':
        rest = work.text[target.last.end:assign.last.end]
        work.replace(target.first.at, assign.last.end, f"{name}.content_en{rest} {name}.write_en = 1'd0;")
    elif target.cell == name and target.port == 'write_en' and group and not any(it.target.text == f'{name}.content_en' for it in group.assigns):
        rest = work.text[target.last.end:assign.last.end]
        work.replace(target.first.at, target.first.at, f'{name}.content_en{rest} ')
    for operand in assign.read():
        if operand.cell == name and operand.port in ('read_done', 'write_done'):
            work.replace(operand.first.at, operand.last.end, f'{name}.done')


def tests(work, part):
    """A plain group behind `with` alone, whose done is 1, becomes a comb group."""
    enabled = {it.name for it in part.control.all() if it.kind == 'enable'}
    for name in dict.fromkeys(it.comb for it in part.control.all() if it.comb in part.groups):
        group = part.groups[name]
        if group.comb or group.length is not None or name in enabled:
            continue
        word = next(token for token in work.design.tokens if token.at >= group.first.at and token.text == 'group')
        work.replace(word.at, word.at, 'comb ')
        for assign in group.assigns:
            if assign.target.group == name:
                work.cut(assign.target.first, assign.last)
        work.did.append((group.line, f'group `{name}`, which stands behind `with` alone, became a `comb group` without a done'))


def starts(work, part):
    """An invoke of a primitive drives the port that starts it by itself."""
    for it in part.control.all():
        cell = part.cell(it.name) if it.kind == 'invoke' else None
        start = designs.starts_by(cell.kind) if cell and cell.kind not in work.design.by_name else None
        for name, operand in it.inputs:
            if name.text == start and operand.literal and operand.width_and_value() == (1, 1):
                end = operand.last.end + (1 if work.text[operand.last.end:operand.last.end + 1] == ',' else 0)
                begin = name.at if end > operand.last.end else work.text.rfind(',', 0, name.at) if it.inputs[0][0] is not name else name.at
                work.replace(begin, end, '')
                work.did.append((it.line, f'cut `{start}` of the invoke of `{cell.name}`: the invoke drives it'))


def clocks(work, part):
    """Assignments of clk and reset."""
    for _, assign in part.all_assigns():
        if assign.target.port in ('clk', 'reset') and not assign.target.group:
            work.cut(assign.target.first, assign.last)
            work.did.append((assign.line, f'cut the assignment of `{assign.target.text}`: it is driven by itself'))


def own_ports(work, part):
    """A port with `@go` or `@done` and another name gets that name."""
    for port in [*part.in_ports, *part.out_ports]:
        role = next((name for name in ('go', 'done', 'clk', 'reset') if name in port.attributes), None)
        if role is None or port.name == role:
            continue
        work.replace(port.token.at, port.token.end, role)
        work.did.append((port.token.line, f'the port `{port.name}` of `{part.name}` became `{role}`'))
        for other in work.design.parts:
            names = {cell.name for cell in other.cells if cell.kind == part.name}
            for group, assign in other.all_assigns():
                for operand in [assign.target, *assign.read()]:
                    if operand.cell in names and operand.port == port.name and not (group and group.call):
                        work.replace(operand.last.at, operand.last.end, role)


def imports(work):
    """A file that is imported and stands beside this one comes into it."""
    for token in work.design.imports:
        name = token.text.strip('"')
        if name.startswith('primitives/'):
            continue
        path = os.path.join(os.path.dirname(work.path), name)
        first = work.design.tokens[work.design.tokens.index(token) - 1]
        if not os.path.isfile(path):
            work.left.append((token.line, f'import of {token.text}: put its components into this file'))
            continue
        with open(path, 'rb') as file:
            inner = file.read().decode('latin-1')
        body = re.sub(r'^\s*import\s+"[^"]*"\s*;[ \t]*\n?', '', inner, flags=re.M)
        work.cut(first, work.after(token))
        work.replace(len(work.text), len(work.text), '\n' + body)
        work.did.append((token.line, f'the components of {token.text} stand in this file now'))


def toplevel(work):
    if 'main' in work.design.by_name:
        return
    marked = [part for part in work.design.parts if 'toplevel' in part.marks]
    if len(marked) == 1:
        work.replace(marked[0].token.at, marked[0].token.end, 'main')
        work.did.append((marked[0].token.line, f'component `{marked[0].name}` became `main`'))
    else:
        work.left.append((1, 'no component is named `main`: rename the one that runs'))


def unknown_left(work, part):
    """What is told and not done."""
    if part.name == 'main':
        for port in [*part.data_ports(part.in_ports), *part.data_ports(part.out_ports)]:
            work.left.append((port.token.line, f'port `{port.name}` of main: an external memory carries what goes in or comes out'))
    for it in part.control.all():
        for _, target in it.outputs:
            cell = part.cell(target.cell) if target.cell else None
            if cell is None or cell.kind != 'std_reg':
                work.left.append((it.line, f'the invoke of `{it.name}` gives `{target.text}` an output: bind it to the `in` of a `std_reg`'))
    for _, assign in part.all_assigns():
        if assign.target.group and assign.target.port == 'go':
            work.left.append((assign.line, f'`{assign.target.text}`: enable the group in control'))
    for cell in part.cells:
        if cell.is_external and part.name != 'main':
            work.left.append((cell.line, f'`@external {cell.name}` in `{part.name}`: an external memory stands in main, and its words go by ports'))


def rewritten(path, text):
    """The text after one round, with what was done and what is left."""
    work = Work(path, text)
    foreign_forms(work)
    imports(work)
    toplevel(work)
    for part in work.design.parts:
        invokes_with(work, part)
        primitives(work, part)
        older_memories(work, part)
        tests(work, part)
        starts(work, part)
        clocks(work, part)
        own_ports(work, part)
        unknown_left(work, part)
    return work.written(), work.did, work.left


def without_hyphens(text):
    """Names in which a `-` stands get a `_` in its place."""
    tokens, done, taken = designs.tokens_of(text), [], []
    for before, hyphen, after in zip(tokens, tokens[1:], tokens[2:]):
        if hyphen.text == '-' and before.end == hyphen.at and hyphen.end == after.at and re.match(r'[A-Za-z_]', before.text) and re.match(r'\w', after.text):
            taken.append(hyphen.at)
            done.append((hyphen.line, f'`{before.text}-{after.text}` became `{before.text}_{after.text}`'))
    for at in taken:
        text = f'{text[:at]}_{text[at + 1:]}'
    return text, list(dict.fromkeys(done))


def ported(path, text):
    """The text after as many rounds as do something."""
    text, done = without_hyphens(text)
    for _ in range(8):
        text, did, left = rewritten(path, text)
        done += did
        if not did:
            break
    return text, done, left


class NotPorted(Exception):
    """A word or a format of a data file that has no form here."""


def fixed(word, fraction):
    scaled = float(word) * (1 << fraction)
    if scaled != int(scaled):
        raise NotPorted(f'{word} has more bits behind the point than {fraction}')
    return int(scaled)


def floating(word, width):
    if width not in (32, 64):
        raise NotPorted(f'floats have 32 or 64 bits, not {width}')
    letter = 'fI' if width == 32 else 'dQ'
    return struct.unpack('<' + letter[1], struct.pack('<' + letter[0], float(word)))[0]


def words(data, of):
    return [words(part, of) for part in data] if isinstance(data, list) else of(data)


def ported_memory(name, memory):
    """A memory of a data file as it is read here, and what was done."""
    form = memory.get('format', {})
    kind, width = form.get('numeric_type'), form.get('width', memory.get('bitwidth'))
    if 'format' not in memory and isinstance(width, int):
        signed = '-' in json.dumps(memory.get('data'))
        return {'data': memory.get('data'), 'format': {'numeric_type': 'bitnum', 'is_signed': signed, 'width': width}}, f'`{name}`: `bitwidth` became a format'
    if kind == 'fixed_point' and isinstance(width, int):
        fraction = form.get('frac_width', width - form.get('int_width', width))
        data = words(memory['data'], lambda word: fixed(word, fraction))
        return {'data': data, 'format': {'numeric_type': 'bitnum', 'is_signed': bool(form.get('is_signed')), 'width': width}}, f'`{name}`: words with {fraction} bits behind the point'
    if kind == 'ieee754_float' and isinstance(width, int):
        return {'data': words(memory['data'], lambda word: floating(word, width)), 'format': {'numeric_type': 'bitnum', 'is_signed': False, 'width': width}}, f'`{name}`: the bits of floats'
    return memory, ''


def ported_data(text):
    done, made, left = [], {}, []
    for name, memory in json.loads(text).items():
        try:
            made[name], did = ported_memory(name, memory) if isinstance(memory, dict) else (memory, '')
            done += [(0, did)] if did else []
        except NotPorted as why:
            made[name] = memory
            left.append((0, f'`{name}`: {why}'))
    return json.dumps(made, indent=2) + '\n', done, left


def main(given):
    """`port F [-o G]`; the status is 2 where something is left."""
    to = None
    if '-o' in given[:-1]:
        at = given.index('-o')
        to, given = given[at + 1], given[:at] + given[at + 2:]
    if len(given) != 1:
        print('    calyx port F [-o G]', file=sys.stderr)
        return 1
    (path,) = given
    try:
        with open(path, 'rb') as file:
            text = file.read().decode('latin-1')
        made, done, left = ported_data(text) if path.endswith('.json') else ported(path, text)
    except OSError as why:
        print(f'port: {path} could not be read: {why.strerror}', file=sys.stderr)
        return 1
    except designs.Unexpected as why:
        print(f'{path}:{why.token.line}:{why.token.column}: error: this goes on no sentence that port knows: {" or ".join(why.wanted)} is wanted', file=sys.stderr)
        return 2
    except ValueError as why:
        print(f'{path}: error: this is no JSON: {why}', file=sys.stderr)
        return 2
    if to:
        with open(to, 'wb') as file:
            file.write(made.encode('latin-1'))
    else:
        sys.stdout.buffer.write(made.encode('latin-1'))
        sys.stdout.flush()
    for word, listed in (('note: ', done), ('warning: left to do: ', left)):
        for line, told_of in listed:
            print(f'{path}:{f"{line}:1:" if line else ""} {word}{told_of}', file=sys.stderr)
    return 2 if left else 0
