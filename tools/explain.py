"""Explains a line `refused LINE:COLUMN RULE NAME` of calyx_cli: what stands there, what it breaks, and how to mend it."""
import difflib
import re

import cells
import design as designs
import explain_control
import explain_text
import forms
import messages
import rules
from messages import Message, Span, span_of


class Refusal:
    """A refusal of a text: its rule, its name and its place; the design, or why it could not be read."""

    def __init__(self, path, text, line, column, rule, name):
        self.source, self.text = messages.Source(path, text), text
        self.place, self.rule, self.name = (line, column), rule, name
        self.tokens = designs.tokens_of(text)
        self.design, self.unread = None, None
        try:
            self.design = designs.read(text)
        except designs.Unexpected as unread:
            self.unread = unread

    @property
    def token(self):
        """The token at the place, or the first behind it."""
        return next((token for token in self.tokens if token.place >= self.place), self.tokens[-1])

    @property
    def part(self):
        return self.design.component_at(*self.place)

    def span(self):
        """The name where it stands at the place, else the token."""
        if self.name and self.source.line(self.place[0])[self.place[1] - 1:].startswith(self.name):
            return Span(*self.place, len(self.name))
        return Span(*self.place, max(len(self.token.text), 1) if self.token.place == self.place else 1)

    def assign(self):
        """The assignment in which the place stands, with its component and group."""
        for part in self.design.parts:
            for group, assign in part.all_assigns():
                if assign.target.first.place <= self.place <= assign.last.place and not (group and group.call):
                    return part, group, assign
        return self.part, None, None

    def operand(self):
        """The operand at the place: of an assignment, a test or an invoke."""
        part, _, assign = self.assign()
        found = [assign.target, *assign.read()] if assign else []
        for it in part.control.all():
            found += [it.test] if it.test else []
            found += [operand for _, operand in [*it.inputs, *it.outputs]]
        return part, next((it for it in found if it.first.place == self.place), assign.target if assign else None)

    def statement(self):
        """The statement at the place."""
        return self.part, next((it for it in self.part.control.all() if it.token.place == self.place), None)


def near(name, known):
    """Of the names that are there those that are like this one, in words."""
    like = difflib.get_close_matches(name, known, 3, 0.6)
    return f'; is {" or ".join(f"`{it}`" for it in like)} meant?' if like else ''


def declared(it, part, operand):
    """A note that tells where the cell of an operand is declared."""
    cell = part.cell(operand.cell) if operand and operand.cell else None
    if cell is None or cell.kind in it.design.by_name:
        return []
    return [(span_of(cell.token), f'`{cell.name}` is `{cell.told()}`')]


def bits(count):
    return f'{count} bit{"" if count == 1 else "s"}'


def of_width(it):
    part, _, assign = it.assign()
    pairs = []
    if assign:
        pairs = [(guard.operands[0], guard.operands[1]) for guard in comparisons(assign.guard)] + [(assign.target, assign.source)]
    pairs += [(operand, other) for call in part.control.all() for operand, other in bound(part, call)]
    for one, other in pairs:
        widths = [cells.width_of(it.design, part, operand) for operand in (one, other)]
        if it.place in (one.first.place, other.first.place) and None not in widths and widths[0] != widths[1]:
            notes = [*declared(it, part, one), *declared(it, part, other), *literal_note(one, other, widths), *memory_note(it, part, one, other, widths)]
            return Message(it.span(), f'`{one.text}` has {bits(widths[0])}, and `{other.text}` has {bits(widths[1])}', notes)
    return Message(it.span(), f'`{it.name}` has another width than the other side')


def bound(part, call):
    """The two sides of what an invoke binds."""
    for name, operand in call.inputs:
        yield designs.Operand(name, name, cell=call.name, port=name.text), operand
    for name, operand in call.outputs:
        yield operand, designs.Operand(name, name, cell=call.name, port=name.text)


def comparisons(guard):
    if guard is None:
        return []
    own = [guard] if len(guard.operands) == 2 else []
    return own + [found for part in guard.parts for found in comparisons(part)]


def memory_note(it, part, one, other, widths):
    """Where an address has another width than what drives it, the declaration may be what is wrong."""
    for operand, width in ((one, widths[1]), (other, widths[0])):
        cell = part.cell(operand.cell)
        if cell and cells.sizes_of(cell.kind) and operand.port.startswith('addr'):
            sizes = cells.sizes_of(cell.kind)
            at = 1 + sizes + int(operand.port[4:])
            size = cell.numbers[at - sizes]
            numbers = [str(width) if k == at else str(number) for k, number in enumerate(cell.numbers)]
            mends = [('to mend it', f'where the declaration is wrong, `{cell.name} = {cell.kind}({", ".join(numbers)})`: addresses of {bits(width)} reach its {size} words')]
            mends = mends if size <= 1 << width else [('note', f'addresses of {bits(width)} would not reach its {size} words')]
            return mends + explain_control.too_many_words(cell)
    return []


def literal_note(one, other, widths):
    """A literal may take the width of the other side."""
    for operand, width in ((one, widths[1]), (other, widths[0])):
        if operand.literal and operand.width_and_value()[1] < 1 << width:
            return [('to mend it', f"`{width}'d{operand.width_and_value()[1]}` has the width of the other side")]
    return []


def of_guard_width(it):
    part, operand = it.operand()
    for _, assign in part.all_assigns():
        for read in assign.read():
            if read.text == it.name and assign.target.first.place <= it.place <= assign.last.place:
                operand = read
    width = cells.width_of(it.design, part, operand) if operand else None
    if width is None:
        return Message(it.span(), f'`{it.name}` stands by itself in a guard or as a condition, and has not one bit')
    text = f'`{operand.text}` stands by itself in a guard or as a condition, and has {bits(width)}, not one'
    span = span_of(operand.first, operand.last)
    return Message(span, text, [('to mend it', f"compare it: `{operand.text} != {width}'d0`")])


def of_literal(it):
    part, operand = it.operand()
    operand = next((read for _, assign in part.all_assigns() for read in assign.read() if read.first.place == it.place), operand)
    width, value = (operand.width_and_value() if operand and operand.literal else None) or (None, None)
    if width is None:
        return Message(it.span(), 'this literal has not 1 to 128 bits, or its value does not fit')
    if not 1 <= width <= cells.MOST_WIDTH:
        return Message(it.span(), f'`{operand.literal}` has {bits(width)}; a width is 1 to {cells.MOST_WIDTH}')
    least = value.bit_length()
    return Message(it.span(), f'{value} does not fit in {bits(width)}: `{operand.literal}` is 0 to {(1 << width) - 1}',
                   [('to mend it', f"`{least}'d{value}` is the least width that holds it; the other side has to have that width too")])


def of_side(it):
    part, operand = it.operand()
    operand = operand if operand and operand.text == it.name else operand
    cell = part.cell(operand.cell) if operand and operand.cell else None
    if cell is None:
        return Message(it.span(), f'`{it.name}` is {"an input" if it.rule == "not-a-target" else "an output"} of the signature')
    ports = cells.cell_ports(it.design, cell)
    ins = ', '.join(port.name for port in ports if port.is_input)
    outs = ', '.join(port.name for port in ports if not port.is_input)
    word = 'an output, and is driven' if it.rule == 'not-a-target' else 'an input, and is read'
    return Message(it.span(), f'`{operand.text}` is {word} here', [('note', f'`{cell.name}` is `{cell.told()}`: inputs {ins or "none"}; outputs {outs or "none"}')])


def of_unknown_name(it):
    part, operand = it.operand()
    if operand is None or (operand.first.place != it.place and operand.text != it.name):
        return unknown_of_control(it)
    cell = part.cell(operand.cell) if operand.cell else None
    if operand.cell and cell is None:
        known = [one.name for one in part.cells]
        return Message(it.span(), f'there is no cell `{operand.cell}` in component `{part.name}`{near(operand.cell, known)}')
    if cell:
        ports = [port.name for port in cells.cell_ports(it.design, cell)]
        older = older_memory(cell, operand.port)
        notes = [*declared(it, part, operand), ('note', f'its ports: {", ".join(ports)}'), *older]
        return Message(it.span(), f'`{cell.name}` has no port `{operand.port}`{near(operand.port, ports) if not older else ""}', notes)
    if operand.group:
        return Message(it.span(), f'there is no group `{operand.group}` in component `{part.name}`{near(operand.group, list(part.groups))}')
    known = [*part.inputs, *part.outputs]
    return Message(it.span(), f'component `{part.name}` has no port `{operand.port}`{near(operand.port, known)}')


def older_memory(cell, port):
    if cell.kind.startswith('seq_mem') and port in ('read_en', 'read_done', 'write_done'):
        return [('to mend it', f'an older `seq_mem`: `content_en` for each access, `write_en` for a write, and one `done`; `tools/calyx port` does it ({forms.PAGE})')]
    if port in ('clk', 'reset'):
        return [('to mend it', 'clk and reset are driven by themselves: cut the assignment; `tools/calyx port` does it')]
    return []


def unknown_of_control(it):
    """A group of control, a comb group of a test, or a cell or port of an invoke."""
    part = it.part
    for one in part.control.all():
        if one.kind == 'invoke':
            cell = part.cell(one.name)
            if cell is None and one.name == it.name:
                return Message(it.span(), f'there is no cell `{one.name}` in component `{part.name}`{near(one.name, [cell.name for cell in part.cells])}')
            for name, _ in [*one.inputs, *one.outputs]:
                if name.place == it.place and cell:
                    ports = [port.name for port in cells.cell_ports(it.design, cell)]
                    return Message(span_of(name), f'`{cell.name}` has no port `{name.text}`{near(name.text, ports)}', [('note', f'`{cell.name}` is `{cell.told()}`, with the ports {", ".join(ports)}')])
    known = [name for name in part.groups if not name.startswith('invoke ')]
    return Message(it.span(), f'there is no group `{it.name}` in component `{part.name}`{near(it.name, known)}', [('note', f'its groups: {", ".join(known) or "none"}')])


def of_unknown_primitive(it):
    known = [*cells.NAMES, *it.design.by_name]
    form = forms.of_primitive(it.name)
    cell = next((cell for part in it.design.parts for cell in part.cells if it.place in (cell.token.place, cell.first.place)), None)
    span = Span(*it.place, len(cell.name)) if cell else it.span()
    at = it.source.line(it.place[0]).find(it.name, it.place[1] - 1)
    span = Span(it.place[0], at + 1, len(it.name)) if at >= 0 else span
    if form:
        return Message(span, f'`{it.name}` is a primitive of another library', [('to mend it', forms.told(form))])
    return Message(span, f'`{it.name}` is neither a primitive of docs/PRIMITIVES.md nor a component of this file{near(it.name, known)}')


def of_bad_parameters(it):
    cell = next((cell for part in it.design.parts for cell in part.cells if it.place in (cell.token.place, cell.first.place)), None)
    if cell is None:
        return Message(it.span(), f'the port `{it.name}` has not 1 to {cells.MOST_WIDTH} bits')
    if cell.kind in it.design.by_name:
        return Message(it.span(), f'a cell of a component has no numbers: `{cell.name} = {cell.kind}();`')
    wanted, span = cells.numbers_of(cell.kind), span_of(cell.token, cell.last)
    names = wanted.split(', ')
    if len(names) != len(cell.numbers):
        return Message(span, f'`{cell.kind}` takes {len(names)} numbers, `{cell.kind}({wanted})`, and {len(cell.numbers)} stand here')
    wrong = [f'{name} is {number}' for name, number in zip(names, cell.numbers) if not fits(name, number)]
    limits = f'a width is 1 to {cells.MOST_WIDTH}, an address width 1 to 64, a size at least 1; OUT_WIDTH of a slice at most, of a pad at least IN_WIDTH; a constant fits its width'
    return Message(span, f'`{cell.told()}`: {", ".join(wrong) or f"`{cell.kind}({wanted})` does not take these numbers"}', [('note', limits)])


def fits(name, number):
    if name.startswith('IDX'):
        return 1 <= number <= 64
    if name.startswith('SIZE'):
        return number >= 1
    return not name.endswith('WIDTH') or 1 <= number <= cells.MOST_WIDTH


def of_duplicate(it):
    for part in it.design.parts:
        for token in [part.token, *(cell.token for cell in part.cells), *(group.token for group in part.groups.values())]:
            if token.text == it.name and token.place < it.place and (part is it.part or token is part.token):
                return Message(it.span(), f'`{it.name}` stands here again', [(span_of(token), 'it is declared here first')])
    return Message(it.span(), f'`{it.name}` is the name of a primitive, or stands twice')


def of_no_main(it):
    names = [part.name for part in it.design.parts]
    marked = [part for part in it.design.parts if 'toplevel' in part.marks] or it.design.parts[-1:]
    span = span_of(marked[0].token) if marked else it.span()
    told = ', '.join(f'`{name}`' for name in names)
    return Message(span, f'no component is named `main`; there are {told}',
                   [('to mend it', 'the component that runs is the one named `main`: rename it; `tools/calyx port` does it where one has `<"toplevel"=1>`')])


def of_recursive(it):
    cell = next((cell for part in it.design.parts for cell in part.cells if it.place in (cell.token.place, cell.first.place)), None)
    if cell is None:
        return Message(it.span(), f'the component of `{it.name}` leads back to the one in which it stands')
    way, part = [it.part.name, cell.kind], it.design.by_name.get(cell.kind)
    while part and part.name != it.part.name and len(way) < 40:
        after = next((one.kind for one in part.cells if reaches(it.design, one.kind, it.part.name, set())), None)
        part = it.design.by_name.get(after)
        way.append(after or '..')
    return Message(span_of(cell.token, cell.last), f'`{it.part.name}` would stand in itself: {" has a cell of ".join(f"`{name}`" for name in way if name)}')


def reaches(it, start, name, seen):
    if start == name:
        return True
    if start in seen or start not in it.by_name:
        return False
    seen.add(start)
    return any(reaches(it, cell.kind, name, seen) for cell in it.by_name[start].cells)


def of_left_out(it):
    foreign = next((one for one in it.design.foreign if one.first.place <= it.place <= one.last.place and one.name in forms.FORMS), None)
    named = next((one for one in it.design.imports if it.name and one.text.strip('"') == it.name), None)
    part, operand = it.operand()
    hole = re.fullmatch(r'(\w+)\[(go|done)\]', it.name)
    if foreign:
        return Message(it.span(), f'a form of Calyx that is left out: {foreign.name}', [('to mend it', forms.told(forms.FORMS[foreign.name]))])
    if named:
        return Message(span_of(named), f'only `primitives/..` is imported, and {named.text} is another file',
                       [('to mend it', 'put its components into this file; `tools/calyx port` does it where the file is beside this one')])
    if hole:
        return left_out_hole(it, part, hole)
    binding = bind_at(it, part)
    if binding:
        return binding
    cell = next((cell for cell in part.cells if it.place in (cell.token.place, cell.first.place)), None)
    if cell:
        wanted = 'a `std_mem`, `comb_mem` or `seq_mem` of at most 64 bits in `main`'
        where = f'in component `{part.name}`' if part.name != 'main' else f'on `{cell.told()}`'
        return Message(span_of(cell.first, cell.last), f'`@external` is for {wanted}, and stands {where}',
                       [('to mend it', 'cut `@external`, or make it such a memory; the words of a component come and go by its ports')])
    port = next((port for port in [*part.in_ports, *part.out_ports] if port.token.place == it.place or port.name == it.name), None)
    if port:
        role = next((name for name in designs.OWN_PORTS if name in port.attributes), None)
        if role:
            return Message(span_of(port.token), f'a port with `@{role}` has the name `{role}`, and this one is `{port.name}`', [('to mend it', f'`{role}`, or nothing: it is there without being declared; `tools/calyx port` does it')])
        return Message(span_of(port.token), f'`main` has no ports but go, clk, reset and done, and this is `{port.name}`', [('to mend it', 'an external memory in `main` carries what goes in or comes out')])
    bind = next((target for one in part.control.all() for _, target in one.outputs if target.text == it.name), None)
    if bind:
        return Message(span_of(bind.first, bind.last), f'an output of an invoke goes to `r.in` of a `std_reg`, and `{bind.text}` is none', [('to mend it', 'bind it to the `in` of a register, and read that behind the invoke')])
    return left_out_name(it, part, operand)


def bind_at(it, part):
    """What is wrong with the port that an invoke binds at the place."""
    for one in part.control.all():
        cell = part.cell(one.name) if one.kind == 'invoke' else None
        for side, pairs in (('inputs', one.inputs), ('outputs', one.outputs)):
            for name, _ in pairs:
                if name.place != it.place or cell is None:
                    continue
                if name.text in ('done', designs.starts_by(cell.kind if cell.kind not in it.design.by_name else '')):
                    return Message(span_of(name), f'`{name.text}` of `{cell.name}` is driven or awaited by the invoke itself', [('to mend it', 'cut it')])
                other = 'an output' if side == 'inputs' else 'an input'
                return Message(span_of(name), f'`{name.text}` of `{cell.name}` is {other}, and stands among the {side} of the invoke', [('to mend it', '`invoke c(INPUT = a.out, ..)(OUTPUT = r.in, ..);`')])
    return None


def left_out_hole(it, part, hole):
    group, word = hole.groups()
    where = next((one for one, assign in part.all_assigns() if assign.target.first.place == it.place), None)
    if word == 'go':
        return Message(it.span(), f'`{it.name}`: a group goes by itself where control enables it', [('to mend it', 'enable the group in control; a group cannot start another')])
    test = next((one for one in part.control.all() if one.comb == group), None)
    if test and where is not None and where.name == group and not any(one.kind == 'enable' and one.name == group for one in part.control.all()):
        return Message(it.span(), f'group `{group}` stands behind `with` in line {test.line} alone, and computes for that test: it has no done', [('to mend it', f'`comb group {group}`, without this assignment; `tools/calyx port` does it')])
    if where is not None and where.name == group:
        written = explain_control.what_is_written(it.design, part, where)
        mend = f'`{group}[done] = {written[0]}.done;`' if written else 'a `comb group` with `with`, or a register that the group writes'
        return Message(it.span(), f'`{it.name}` is 1 from the first turn on, so the group would write nothing, or not know when it has', [('to mend it', mend)])
    return Message(it.span(), f'`{it.name}` is driven or read outside group `{group}`', [('to mend it', 'drive it in the group, and read in its place the port that it is driven by, as `r.done`')])


def left_out_name(it, part, operand):
    group = part.groups.get(it.name)
    statement = next((one for one in part.control.all() if one.name == it.name and one.kind == 'enable'), None)
    test = next((one for one in part.control.all() if one.comb == it.name), None)
    if group and group.comb and statement:
        return Message(it.span(), f'`{it.name}` is a `comb group` (line {group.line}): it computes for a test, and control cannot enable it',
                       [('to mend it', f'`if .. with {it.name}` or `while .. with {it.name}`, or a plain group that writes')])
    if group and not group.comb and test:
        return Message(it.span(), f'`{it.name}` is no `comb group` (line {group.line}), and stands behind `with`', [('to mend it', 'write `comb group`, without a done and without what writes')])
    if operand and operand.text == it.name and operand.port in designs.OWN_PORTS:
        return Message(it.span(), f'`{operand.text}` is driven by itself', [('to mend it', 'cut the assignment')])
    cell = part.cell(it.name)
    if cell:
        return Message(it.span(), f'`{cell.name}` is `{cell.told()}`, which computes in the same cycle: an invoke has nothing to start and no done', [('to mend it', 'a group that drives it')])
    if operand and operand.text == it.name and not operand.cell:
        return Message(it.span(), f'`{operand.text}` of the signature is driven in a group', [('to mend it', 'a continuous assignment from a register that the group writes')])
    return Message(it.span(), f'`{it.name}` is a form that is left out', [('to mend it', f'docs/LANGUAGE.md, "What is not read, and what to write"; {forms.PAGE}')])


BY_RULE = {
    **{rule: explain_text.of_text for rule in ('bad-byte', 'open-comment', 'open-string', 'bad-literal', 'unexpected', 'too-deep')},
    'duplicate': of_duplicate, 'unknown-name': of_unknown_name, 'unknown-primitive': of_unknown_primitive, 'bad-parameters': of_bad_parameters, 'recursive': of_recursive,
    'no-main': of_no_main, 'left-out': of_left_out, 'width': of_width, 'guard-width': of_guard_width, 'literal': of_literal, 'not-a-target': of_side, 'not-a-source': of_side,
    **explain_control.BY_RULE,
}


def refused(path, text, line, column, rule, name, stream=None):
    """Prints the explanation of a refusal."""
    it = Refusal(path, text, line, column, rule, name)
    if it.design is None and BY_RULE.get(rule) is not explain_text.of_text:
        message = Message(it.span(), f'{rule} {name}'.strip())
    else:
        message = BY_RULE.get(rule, lambda it: Message(it.span(), f'{rule} {name}'.strip()))(it)
    notes = list(message.notes)
    if rule in rules.rules() and not (rule == 'unexpected' and it.unread and notes):
        notes.append(('rule', f'{rule}: {rules.plain(rules.rules()[rule][0])}'))
    if not any(word == 'to mend it' for word, _ in notes) and rule in rules.mends() and not (rule == 'unexpected' and it.unread):
        notes.append(('to mend it', rules.mends()[rule]))
    messages.show(it.source, message.span, 'error', message.text, notes, stream)
