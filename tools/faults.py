"""Explains how a run stopped: `fault KIND PATH TURN` and `more N`, with what goes on in that turn, in each instance."""
import dataclasses

import cells
import flattening
import footprints
import given
import messages
import moment
import program
import rules
from messages import Message, span_of


def words_of(text, data):
    """The words of the external memories of a text, from a data file that fits."""
    return {name: [word % (1 << width) for word in given.flat(data[name]['data'])] for name, _, width, _ in given.externals(text)}


def at(it, data_path, turn):
    """The run of a design at a turn; None with the reason where there is no text to run."""
    text, told = program.compiled(it.text)
    if text is None:
        return None, told
    return moment.Moment(flattening.flattened(it), text, words_of(text, given.memories(data_path, text)), turn), ''


def tell(path, it, line, data_path, stream):
    """Prints the explanation of a line `fault ..` or `more ..`."""
    words = line.split(' ')
    kind, where, turn = ('more', '', int(words[1])) if words[0] == 'more' else (words[1], words[2], int(words[3]))
    seen, why = at(it, data_path, turn)
    source = messages.Source(path, it.text)
    if seen is None:
        messages.show(source, None, 'error', f'{line}: what goes on then cannot be told, since the design is not compiled ({why})', (), stream)
        return
    message = of_more(seen, turn) if kind == 'more' else of_fault(seen, kind, where, turn)
    which = f'turn {turn}' if seen.cycle == turn else f'turn {seen.cycle}' if not seen.is_there else f'turn {turn}, as in turn {seen.cycle}'
    notes = [*message.notes, *(('note', f'in {which}: {line}') for line in seen.lines())]
    messages.show(source, message.span, 'error', message.text, notes, stream)


def of_more(seen, turn):
    notes = []
    if seen.again:
        first, again = seen.again
        text = f'the run never ends: after turn {again} all registers and words are as they were after turn {first}'
    elif seen.is_there:
        text = f'the run has not ended after {turn} turns'
        notes.append(('to mend it', 'give more turns, if it is only long; what goes on then stands below'))
    else:
        text = f'the run has not ended after {turn} turns; here it was followed for {seen.cycle}'
    waits = [wait for _, look, statements, _ in seen.looks() for wait in waiting(look, statements)]
    loops = [loop for _, look, statements, _ in seen.looks() for loop in looping(look, statements)]
    notes += waits or loops
    inner = [(look, one) for _, look, found, _ in seen.looks() for one in found]
    span = notes[-1][0] if waits or loops else span_of(inner[-1][1].token) if inner else None
    if seen.again and waits:
        notes.append(('to mend it', 'let the group write in each case (a guard on what it writes, not on its write_en), or put the write into an arm of an if'))
    return Message(span, text, notes)


def around(statement, inner):
    """The statements in which one stands, the outermost first; None where it stands in none."""
    if statement is inner:
        return []
    for part in statement.parts:
        found = around(part, inner)
        if found is not None:
            return [statement, *found]
    return None


def looping(look, statements):
    """The innermost `while` that control is in, with the registers that its test reads."""
    loops = {}
    for it in statements:
        for one in [*(around(look.part.control, it) or []), it]:
            if one.kind == 'while':
                loops[it.token] = one
    for one in {id(one): one for one in loops.values()}.values():
        registers = sorted(read_by(look, one))
        told = ', '.join(f'`{cell}.{port}` (now {look.net(cell, port)}; {writers(look, one, cell)})' for cell, port in registers)
        yield span_of(one.token), f'control is in `{one.told()}`, which goes on while `{one.test.text}` is 1; that rests on {told or "no register"}'


def writers(look, loop, cell):
    groups = [group.name for group, assign, _ in footprints.driven(look.part, loop).get(cell, []) if not group.comb]
    return f'written in the loop by {", ".join(f"`{name}`" for name in dict.fromkeys(groups))}' if groups else 'not written in the loop'


def read_by(look, loop):
    """The registered ports that the test of a loop rests on."""
    found, left, seen = set(), [loop.test], set()
    comb = look.part.groups.get(loop.comb)
    assigns = [*look.part.assigns, *(comb.assigns if comb else [])]
    while left:
        operand = left.pop()
        port = cells.port_of(look.design, look.part, operand)
        if port is None or not operand.cell or operand.text in seen:
            continue
        seen.add(operand.text)
        if port.is_input:
            left += [read for assign in assigns if assign.target.text == operand.text for read in assign.read()]
        elif port.side == 'registered' or look.part.cell(operand.cell).kind in look.design.by_name:
            found.add((operand.cell, operand.port))
        else:
            left += [dataclasses.replace(operand, port=name) for name in cells.inputs_of_output(look.part.cell(operand.cell).kind, operand.port)]
    return found


def waiting(look, statements):
    """Of each group that goes and whose done cannot come, what it does not drive."""
    for it in statements:
        if it.kind != 'enable' or it.static:
            continue
        group = look.part.groups[it.name]
        for cell in dones(look.part, group):
            enables = [port.name for port in cells.cell_ports(look.design, cell) if port.side == 'enable']
            enables = ['content_en'] if 'content_en' in enables else enables
            driven = [assign for assign in group.assigns if assign.target.cell == cell.name and assign.target.port in enables]
            ports = ' or '.join(f'`{cell.name}.{name}`' for name in enables)
            if not driven:
                yield span_of(group.token), f'group `{group.name}` waits for `{cell.name}.done`, and does not drive {ports}'
            elif all(look.guard(assign.guard) == 0 or look.operand(assign.source) == 0 for assign in driven):
                yield span_of(driven[0].target.first, driven[0].last), f'group `{group.name}` waits for `{cell.name}.done`, and {ports} is 0 in this turn'


def dones(part, group):
    """The cells whose done a group waits for."""
    found = []
    for assign in group.assigns:
        if assign.target.group == group.name:
            found += [part.cell(it.cell) for it in assign.read() if it.cell and it.port == 'done']
    return [cell for cell in found if cell]


def of_fault(seen, kind, where, turn):
    fault = seen.fault(where, kind)
    if fault is None:
        return Message(None, f'in turn {turn} `{where}` has a fault: {kind}', [('note', f'{kind} is mostly caused by: {rules.faults()[kind]}')])
    look = fault.look
    at_port = look.named(fault.at)
    way = ' <- '.join(f'`{name}`' for name in dict.fromkeys(fault.way))
    behind = f', by way of {way}' if len(set(fault.way)) > 1 else ''
    if kind == 'range':
        return Message(spot_of(look, fault), f'in turn {turn} an address is out of range: {fault.note or at_port}', drivers(fault.drivers))
    if fault.kind == 'conflict':
        return Message(spot_of(look, fault), f'in turn {turn} `{at_port}` is driven with different values{behind}: {fault.note}',
                       [*drivers(fault.on), ('to mend it', 'let the guards exclude each other, as `x.out ?` and `!x.out ?`; or leave one assignment away')])
    if fault.note:
        return Message(spot_of(look, fault), f'in turn {turn} `{where}` has no value: {fault.note}{behind}')
    no_value = f', so `{where}` has no value' if at_port != where else ''
    notes = [*why_undriven(look, fault)]
    spot = spot_of(look, fault) or next((word for word, _ in notes if isinstance(word, messages.Span)), None)
    return Message(spot, f'in turn {turn} nothing drives `{at_port}`{no_value}{behind}', notes)


def drivers(found):
    return [(span_of(assign.target.first, assign.last), f'in group `{group.name}`' if group else 'a continuous assignment') for group, assign in found]


def spot_of(look, fault):
    """The last place on the way of a fault where a source text can be shown: where the port is read, or driven."""
    if fault.on:
        _, assign = fault.on[0]
        return span_of(assign.target.first, assign.last)
    for name in reversed(fault.way):
        for group, assign in look.part.all_assigns():
            if group is not None and group.name not in look.active:
                continue
            for operand in [assign.target, *assign.read()]:
                if operand.text == name:
                    return span_of(operand.first, operand.last)
        test = next((one.test for one in look.part.control.all() if one.test and one.test.text == name), None)
        if test:
            return span_of(test.first, test.last)
    return None


def why_undriven(look, fault):
    """Why nothing drives a port: it is forgotten, its guards are 0, or it is driven in other groups."""
    cell, part = fault.at.partition('.')[0], look.part
    if fault.drivers:
        yield from ((span_of(assign.target.first, assign.last), 'its guard is 0 in this turn') for _, assign in fault.drivers)
        return
    groups = list(dict.fromkeys(group.name for group, _ in fault.idle))
    if groups:
        yield 'note', f'it is driven in {", ".join(f"`{name}`" for name in groups)} alone, and {"that does" if len(groups) == 1 else "these do"} not go in this turn'
    tests = [one for one in part.control.all() if one.kind in ('if', 'while') and not one.comb and one.test.cell == cell]
    combs = [name for name in groups if part.groups[name].comb]
    calls = [name for name in look.active if name.startswith('invoke ') and part.cell(cell) and part.groups[name].call.name == cell]
    if tests and combs:
        yield span_of(tests[0].token), 'this test has no `with`'
        yield 'to mend it', f'`{tests[0].told()} with {combs[0]}`'
    elif calls:
        call = part.groups[calls[0]].call
        yield span_of(call.token), f'this invoke does not bind `{fault.at.partition(".")[2]}`'
        yield 'to mend it', f'`invoke {cell}(.., {fault.at.partition(".")[2]} = ..)`'
    elif look.active:
        yield 'to mend it', f'drive `{fault.at}` in {" or ".join(f"`{name}`" for name in sorted(look.active))}, or by a continuous assignment'
