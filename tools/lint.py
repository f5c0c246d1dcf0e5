"""Warnings of what a design or its data file has that is no break of a rule, and is mostly a mistake: tools/calyx --lint."""
import difflib
import json

import cells
import footprints
from messages import Message, span_of

# Attributes that Calyx knows elsewhere, and that have no meaning here.
KNOWN = {'external', 'go', 'done', 'clk', 'reset', 'data', 'control', 'generated', 'stable', 'interval', 'promotable', 'bound', 'share', 'static', 'pos', 'state_share',
         'new_fsm', 'one_hot', 'nointerface', 'inline', 'write_together', 'read_together', 'fast', 'slow', 'toplevel', 'par', 'protected', 'promoted', 'loc'}


def warnings(it, data_path=None):
    """The warnings of a design, in the order of its text; then those of its data file, which have no place."""
    found = [message for part in it.parts for of in (attributes, invokes, dones, sequential, pipes, unused) for message in of(it, part)]
    yield from sorted(found, key=lambda message: (message.span.line, message.span.column))
    if data_path and 'main' in it.by_name:
        yield from data_names(it, data_path)


def attributes(it, part):
    """Words near `external`, and `@sync`."""
    for cell in part.cells:
        for name in cell.attributes:
            if name not in KNOWN and difflib.get_close_matches(name, ['external'], 1, 0.7) and not cell.is_external:
                yield Message(span_of(cell.first, cell.token), f'`@{name}` has no meaning, so `{cell.name}` takes no words of the data file and begins with 0',
                              [('to mend it', f'`@external {cell.name} = {cell.told()};`, if that is meant')])
    for one in part.control.all():
        if 'sync' in one.attributes:
            yield Message(span_of(one.token), '`@sync` has no meaning here: the arms of a `par` do not wait for each other on the way', [('to mend it', 'end the `par` there and begin another')])


def invokes(it, part):
    """Inputs of a component that an invoke does not bind."""
    for one in part.control.all():
        cell = part.cell(one.name) if one.kind == 'invoke' else None
        if cell is None or cell.kind not in it.by_name:
            continue
        bound = {name.text for name, _ in one.inputs}
        always = {assign.target.port for assign in part.assigns if assign.target.cell == cell.name}
        unbound = [name for name in it.by_name[cell.kind].inputs if name not in bound | always]
        if unbound:
            yield Message(span_of(one.token), f'this invoke of `{cell.name}` does not bind {", ".join(f"`{name}`" for name in unbound)}',
                          [('note', f'where `{cell.kind}` reads {"it" if len(unbound) == 1 else "one of them"}, the run ends with `fault undefined`')])


def dones(it, part):
    """A group that waits for the done of a cell that it does not start."""
    for group in part.groups.values():
        if group.call or group.comb or group.length is not None:
            continue
        for assign in group.assigns:
            if assign.target.group != group.name:
                continue
            for operand in assign.read():
                cell = part.cell(operand.cell) if operand.cell and operand.port == 'done' else None
                if cell and not any(one.target.cell == cell.name and is_enable(it, part, one.target) for one in group.assigns):
                    yield Message(span_of(operand.first, operand.last), f'group `{group.name}` waits for `{operand.text}`, and does not start `{cell.name}`',
                                  [('note', 'so it is done only if the done is left over from another group, or never')])


def is_enable(it, part, operand):
    port = cells.port_of(it, part, operand)
    return port is not None and port.side == 'enable'


def sequential(it, part):
    """An access of a `seq_mem` without its `content_en`."""
    for group in part.groups.values():
        if group.call:
            continue
        driven = {}
        for assign in group.assigns:
            driven.setdefault(assign.target.cell, {})[assign.target.port] = assign
        for name, ports in driven.items():
            cell = part.cell(name) if name else None
            if cell and cell.kind.startswith('seq_mem') and 'content_en' not in ports:
                first = next(iter(ports.values()))
                yield Message(span_of(first.target.first, first.target.last), f'group `{group.name}` drives `{name}`, and not its `content_en`: nothing is read or written',
                              [('to mend it', f"`{name}.content_en = 1'd1;`")])


def pipes(it, part):
    """A pipe that begins again in the turn in which it is done."""
    for group in part.groups.values():
        for assign in group.assigns:
            cell = part.cell(assign.target.cell) if assign.target.cell else None
            if cell and cell.kind in cells.PIPES and assign.target.port == 'go' and assign.guard is None and group.length is None and not group.call:
                yield Message(span_of(assign.target.first, assign.last), f'`{cell.name}` begins again in the turn in which it is done',
                              [('to mend it', f"`{cell.name}.go = !{cell.name}.done ? 1'd1;`: then it stands where the group goes on for a turn")])


def unused(it, part):
    """Groups that nothing enables, and cells that nothing names."""
    enabled = {group.name for group, _ in footprints.groups_of(part, part.control)}
    for group in part.groups.values():
        if group.name not in enabled:
            yield Message(span_of(group.token), f'{"comb group" if group.comb else "group"} `{group.name}` is never {"used by a test" if group.comb else "enabled"}', [])
    named = {operand.cell for _, assign in part.all_assigns() for operand in [assign.target, *assign.read()]}
    named |= {one.test.cell for one in part.control.all() if one.test} | {one.name for one in part.control.all() if one.kind == 'invoke'}
    for cell in part.cells:
        if cell.name not in named and not cell.is_external:
            yield Message(span_of(cell.token), f'cell `{cell.name}` is never used', [])


def data_names(it, data_path):
    """Names of the data file that are no external memory."""
    try:
        with open(data_path, encoding='utf-8') as file:
            names = json.load(file)
    except (OSError, ValueError):
        return
    if not isinstance(names, dict):
        return
    main = it.by_name['main']
    externals = [cell.name for cell in main.cells if cell.is_external]
    for name in names:
        if name not in externals:
            cell = main.cell(name)
            why = f'`{name}` is a memory without `@external` (line {cell.line})' if cell and cells.sizes_of(cell.kind) else f'there is no external memory `{name}`'
            like = difflib.get_close_matches(name, externals, 1, 0.6)
            yield Message(None, f'{why}, so its words are passed over' + (f'; is `{like[0]}` meant?' if like and not cell else ''), [])


