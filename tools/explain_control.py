"""Explains refusals of the stages behind names and widths: dones, static control, calls, circles, races and limits."""
import cells
import footprints
from messages import Message, Span, span_of


def what_is_written(design, part, group):
    """The cells of which a group drives an enabling port, each once."""
    found = []
    for assign in group.assigns:
        port = cells.port_of(design, part, assign.target)
        if port and port.side == 'enable' and assign.target.cell not in found:
            found.append(assign.target.cell)
    return found


def of_no_done(it):
    group = next((group for group in it.part.groups.values() if it.place in (group.first.place, group.token.place)), it.part.groups.get(it.name))
    written = what_is_written(it.design, it.part, group)
    span = span_of(group.token)
    if not written:
        return Message(span, f'group `{group.name}` does not drive `{group.name}[done]`, and writes nothing',
                       [('to mend it', 'a `comb group` where it computes for a test; else let it write a register, and take its done')])
    if len(written) == 1:
        mend = f'`{group.name}[done] = {written[0]}.done;`'
    else:
        mend = f"`{group.name}[done] = {' & '.join(f'{cell}.done' for cell in written)} ? 1'd1;`"
    if not any(one is group for one, _ in footprints.groups_of(it.part, it.part.control)):
        mend += ', or cut the group: nothing enables it'
    return Message(span, f'group `{group.name}` does not drive `{group.name}[done]`, so nobody knows when it is done', [('to mend it', f'it writes {", ".join(written)}: {mend}')])


def of_state(it):
    """A done, an output or a condition that rests on what is no state."""
    part, _, assign = it.assign()
    if assign is None:
        return Message(it.span(), f'`{it.name}` rests on what is computed in the same cycle')
    ways = [(operand, footprints.no_state(it.design, part, operand)) for operand in assign.read()]
    operand, way = next(((operand, way) for operand, way in ways if way), (assign.source, []))
    what = f'`{assign.target.text}`'
    span = span_of(operand.first, operand.last)
    if not way:
        return Message(span, f'{what} leads back to an input of the signature by `{operand.text}`', [('to mend it', 'drive the output from a register that a group writes')])
    notes = [('note', text) for text in way]
    if it.rule == 'done-not-state':
        notes.append(('to mend it', 'take the `done` of a register that keeps the answer; what is to be tested needs no group of its own: a `comb group` with `with`'))
    return Message(span, f'{what} rests on `{operand.text}`, which is no state', notes)


def of_always_enable(it):
    part, _, assign = it.assign()
    span = span_of(assign.target.first, assign.target.last) if assign else it.span()
    return Message(span, f'`{it.name}` would be driven in every cycle, outside all groups', [('to mend it', 'put the assignment into the group that writes; where no group drives it, it is 0')])


def of_comb_enable(it):
    part, group, assign = it.assign()
    span = span_of(assign.target.first, assign.target.last) if assign else it.span()
    name = group.name if group else ''
    return Message(span, f'`{it.name}` is driven in comb group `{name}`, which computes for one test and writes nothing',
                   [('to mend it', 'put it into a plain group that control enables before the test')])


def times_of(guard):
    if guard is None:
        return []
    own = [guard] if guard.kind == 'time' else []
    return own + [found for part in guard.parts for found in times_of(part)]


def of_static_guard(it):
    part, group, assign = it.assign()
    if group is None or group.length is None:
        where = f'group `{group.name}` is not static' if group else 'it stands outside groups'
        return Message(it.span(), f'`%` counts the cycles of a static group, and {where}', [('to mend it', 'write `static<N> group`, or take the `%` away')])
    wrong = next((time.cycles for time in times_of(assign.guard) if not time.cycles[0] < time.cycles[1] <= group.length), (0, 0))
    return Message(it.span(), f'`%[{wrong[0]}:{wrong[1]}]` is beyond the cycles of group `{group.name}`, which has {group.length}: 0 to {group.length - 1}',
                   [(span_of(group.token), f'its length stands here: `static<{group.length}> group {group.name}`'),
                    ('to mend it', f'`%[a:b]` is 1 from cycle a to cycle b - 1, so b is at most {group.length}; or give the group a greater length')])


def of_static_shape(it):
    part, statement = it.statement()
    if statement is None:
        group = next((group for group in part.groups.values() if group.first.place <= it.place <= group.last.place), None)
        if group and group.length == 0:
            return Message(it.span(), f'static group `{group.name}` has length 0', [('to mend it', '1 at least')])
        if it.part.static is not None and it.name == it.part.name:
            return of_part_length(it, it.part)
        return Message(it.span(), 'a static group drives a done: its length says when it ends', [('to mend it', 'cut the assignment')])
    wrong = next(static_breaks(it.design, part, statement), None)
    return wrong or Message(it.span(), f'`{statement.told()}` is no static control')


def of_part_length(it, part):
    """The control of a static component is no one static statement, or has another length than is written."""
    length, span = footprints.length_of(part, part.control), span_of(part.token)
    if not isinstance(length, int):
        return Message(span, f'the control of a static component is one static statement, and `{length.told()}` is none',
                       [(span_of(length.token), 'it stands here'), ('to mend it', 'put all of it into one `static seq` or `static par`')])
    return Message(span, f'`static<{part.static}> component {part.name}` has a control of {length} cycle{"" if length == 1 else "s"}',
                   [('to mend it', f'`static<{length}> component {part.name}`')])


def static_breaks(design, part, statement):
    """What of a static statement breaks the rule."""
    span = span_of(statement.token)
    inner = next((one for one in statement.all() if not one.static and one.kind != 'empty'), None)
    if inner is not None:
        around = [(span, f'`{statement.told()}` is static')] if inner is not statement else []
        yield Message(span_of(inner.token), f'`{inner.told()}` is dynamic, and stands in static control', [*why_dynamic(part, inner), *around])
        return
    length = footprints.length_of(part, statement)
    if statement.length is not None and length != statement.length:
        notes = [('note', sums(part, statement))] if statement.parts else []
        yield Message(span, f'`static<{statement.length}> {statement.kind}` has {length} cycle{"" if length == 1 else "s"}, and not {statement.length}',
                      [*notes, ('to mend it', f'`static<{length}> {statement.kind}`, or `static {statement.kind}`: the length is found without being written')])
    elif length == 0:
        yield Message(span, f'`{statement.told()}` has no cycle')
    elif statement.kind == 'if':
        way = footprints.no_state(design, part, statement.test)
        yield Message(span, f'`{statement.test.text}` rests on what is computed by a group, and is looked at in the first cycle of a `static if`',
                      [*(('note', text) for text in way), ('to mend it', 'drive the comparison by continuous assignments of registers, or keep its result in a register')])


def sums(part, statement):
    """How the length of a statement comes about."""
    told = [f'{it.told()} {footprints.length_of(part, it)}' for it in statement.parts if it.kind != 'empty']
    word = {'seq': 'the sum of', 'par': 'the greatest of', 'if': 'the greater of', 'repeat': f'{statement.count} times'}[statement.kind]
    return f'its length is {word} {", ".join(told)}'


def why_dynamic(part, statement):
    if statement.kind == 'enable' and statement.name in part.groups:
        group = part.groups[statement.name]
        return [(span_of(group.token), f'group `{group.name}` has no length'), ('to mend it', f'`static<N> group {group.name}` with its N cycles and without a done, or leave `static` away above it')]
    if statement.kind in ('seq', 'par', 'if', 'repeat'):
        return [('to mend it', f'`static {statement.kind}`, with static groups in it')]
    if statement.kind == 'invoke':
        return [('to mend it', '`static invoke`, of a cell of a static component; or put it before or behind the static statement')]
    return [('to mend it', 'put it before or behind the static statement: there is no static `while`')]


def of_call_shape(it):
    part, group, assign = it.assign()
    call = next((one for one in part.control.all() if one.kind == 'invoke' and one.token.place <= it.place <= one.last.place), None)
    if group is None:
        if call and call.static:
            return of_static_invoke(it, part, call)
        if call:
            return Message(it.span(), f'this invoke is no call: `{it.name}`', [('to mend it', 'an input that it binds must not rest on an output of the cell itself')])
        return Message(it.span(), f'`{it.name}` of a component cell is driven outside plain groups', [('to mend it', f'write `invoke {it.name.partition(".")[0]}(..)(..);` in control')])
    cell = it.name.partition('.')[0]
    return Message(it.span(), f'group `{group.name}` drives ports of a component cell, and has not the one form of a call: `{it.name}` breaks it',
                   [('to mend it', f'write `invoke {cell}(..)(..);` in control, or in the group each input once, `c.go = !c.done ? 1\'d1`, and of each output `r.in = c.y; r.write_en = c.done;` with the dones of these registers')])


def of_static_invoke(it, part, call):
    """What of an invoke of a static component breaks the rule."""
    bound = {token.text: source for token, source in call.inputs}
    unbound = [name for name in it.design.by_name[part.cell(call.name).kind].inputs if name not in bound]
    if unbound:
        return Message(it.span(), f'an invoke of a static component binds each input, and `{unbound[0]}` is not bound', [('to mend it', f'`{unbound[0]} = ..` between the first brackets')])
    for name, source in bound.items():
        way = footprints.no_state(it.design, part, source)
        if way:
            return Message(span_of(source.first, source.last), f'the source of `{name}` rests on what is no state: it is seen anew in each cycle of `{call.name}`',
                           [*(('note', text) for text in way), ('to mend it', 'keep it in a register before the invoke')])
    return Message(it.span(), f'a source of this invoke reads `{call.name}` itself, or what reads it by continuous assignments', [('to mend it', 'keep it in a register before the invoke')])


def of_comb_cycle(it):
    part = it.design.by_name.get(it.name, it.part)
    for group in [None, *part.groups.values()]:
        found = footprints.circle(it.design, part, group)
        if found:
            return told_circle(it, part, group, found)
    return Message(it.span(), f'in component `{part.name}` a port depends on itself in one cycle')


def told_circle(it, part, group, found):
    """A circle with a line for each step of it: an assignment, or a cell that computes in the same cycle."""
    from design import Assign
    steps = [f'`{port}` ' + (f'takes what line {by.line} gives' if isinstance(by, Assign) else f'is computed by `{by.told()}`') for port, by in found]
    ways = ' <- '.join(f'`{port}`' for port, _ in [*found, found[0]])
    first = next((by for _, by in found if isinstance(by, Assign)), None)
    where = f'with group `{group.name}` (line {group.line})' if group else 'under the continuous assignments'
    lines = sorted({by.line for _, by in found if isinstance(by, Assign)})
    notes = [('note', '; '.join(steps)), ('to mend it', 'put a register into the circle, or take the step apart into two groups')]
    span = span_of(first.target.first, first.last) if first else it.span()
    return Message(span, f'a circle in component `{part.name}` {where}, of line{"s" if len(lines) > 1 else ""} {", ".join(map(str, lines))}: {ways}', notes)


def of_race(it):
    part, statement = it.statement()
    if statement is None or statement.kind != 'par':
        statement = next((one for one in part.control.all() if one.kind == 'par' and one.token.line == it.place[0]), None)
    if statement is None:
        return Message(it.span(), f'two arms use `{it.name}`')
    uses = [(number, arm, how_used(part, arm, it.name)) for number, arm in enumerate(statement.parts)]
    uses = [(number, arm, use) for number, arm, use in uses if use]
    drives = next((one for one in uses if one[2][0] == 'drives'), uses[0] if uses else None)
    other = next((one for one in uses if one is not drives), None)
    if drives is None or other is None:
        return Message(it.span(), f'two arms use `{it.name}`')
    two = sorted((drives, other), key=lambda one: one[0])
    told = [f'arm {number} (`{arm.told()}`, line {arm.line}) {use[1]}' for number, arm, use in two]
    notes = [(span, text) for _, _, use in two for span, text in use[2]]
    cell = part.cell(it.name)
    mend = 'put the two one after the other, or give each arm a cell of its own'
    if cell and cell.kind in it.design.by_name:
        mend = f'give each arm a cell of its own: `{cell.name}_1 = {cell.kind}();`'
    elif cell:
        mend = f'put the two one after the other, or give each arm a cell of its own, as `{cell.name}_1 = {cell.told()};`'
    return Message(span_of(statement.token), f'two arms of this `{statement.told()}` meet at `{it.name}`: {told[0]}, and {told[1]}', [*notes, ('to mend it', mend)])


def how_used(part, arm, name):
    """How an arm uses a cell or a group: drives, reads or enables, in words, and with the places; None where it does not."""
    if name in part.groups:
        calls = footprints.enabled(arm, name)
        if calls and part.cell(name) is None:
            return 'drives', f'enables group `{name}`', [(span_of(calls[0].token), 'enabled here')]
    driven = footprints.driven(part, arm)
    if name in driven:
        groups = list(dict.fromkeys(group.name for group, _, _ in driven[name]))
        group, assign, by = driven[name][0]
        where = by if group.call else assign.target
        word = 'drives it by' if group.call else f'drives it in group{"s" if len(groups) > 1 else ""}'
        return 'drives', f'{word} {", ".join(f"`{it}`" for it in groups)}', [(span_of(where.token if group.call else assign.target.first, None if group.call else assign.target.last), f'`{groups[0]}` drives it')]
    named = footprints.named(part, arm)
    if name in named:
        group, operand = named[name][0]
        where = f'in group `{group.name}`' if group else 'in a test'
        return 'reads', f'reads it {where}', [(span_of(operand.first, operand.last), f'read {where}')]
    assign, by = footprints.read_by_continuous(part, {*driven, *named}).get(name, (None, None))
    if assign:
        return 'reads', f'uses `{by}`, which reads it by a continuous assignment', [(span_of(assign.target.first, assign.last), 'the continuous assignment')]
    return None


MOST_WORDS = 4194304
LIMITS = {
    'cells': 'a component has at most 4,096 cells', 'groups': 'a component has at most 4,096 groups, each `invoke` one more', 'repeat': 'a `repeat` has fewer than 2^32 rounds',
    'occurrences': 'an island has at most 4,096 enables, each once however often it is repeated', 'latency': 'an island has fewer than 2^32 cycles',
    'instances': 'a design has at most 4,096 instances of components', 'depth': 'instances stand at most 32 deep in each other',
    'words': 'all memories together have at most 4,194,304 words', 'weight': 'the weight of a design, its size with each component as often as it has instances, is at most 65,536',
}


def of_limit(it):
    notes, span = [], it.span()
    if it.name == 'words':
        memories = [(cell, words_of(cell)) for part in it.design.parts for cell in part.cells if cells.sizes_of(cell.kind)]
        memories.sort(key=lambda one: -one[1])
        notes = [(span_of(cell.token), f'`{cell.told()}` has {words:,} words') for cell, words in memories[:2]]
        total = sum(words for _, words in memories)
        notes.append(('note', f'the memories of all components, each once, have {total:,} words'))
        span = Span(*it.place)
    return Message(span, f'a limit on {it.name}: {LIMITS.get(it.name, "see docs/LANGUAGE.md")}', notes)


def too_many_words(cell):
    """A note on a memory that is over the limit by itself, which is told only once all else is mended."""
    return [('note', f'`{cell.told()}` has {words_of(cell):,} words; {LIMITS["words"]}')] if words_of(cell) > MOST_WORDS else []


def words_of(cell):
    words = 1
    for size in cell.numbers[1:1 + cells.sizes_of(cell.kind)]:
        words *= size
    return words


def size_of(part):
    """The size of a component as rule `too-large` counts it: the ports, cells, groups, assignments, guard nodes, statements, and occurrences of islands."""
    assigns = [assign for _, assign in part.all_assigns()]
    guards = sum(assign.guard.nodes() if assign.guard else 0 for assign in assigns)
    statements = [it for it in part.control.all()]
    occurrences = sum(1 for it in statements if it.static and it.kind in ('enable', 'if'))
    return len(part.inputs) + len(part.outputs) + len(part.cells) + len(part.groups) + len(assigns) + guards + len(statements) + occurrences


def of_too_large(it):
    parts = sorted(((size_of(part), part) for part in it.design.parts), key=lambda one: -one[0])
    told = ', '.join(f'`{part.name}` {size:,}' for size, part in parts[:4])
    return Message(span_of(parts[0][1].token), f'the size of the design is {int(it.name):,}, and `compile` takes 16,384',
                   [('note', f'of it {told}'), ('note', '`check` and `interp` take the design as it is')])


BY_RULE = {
    'no-done': of_no_done, 'done-not-state': of_state, 'output-not-state': of_state, 'always-enable': of_always_enable, 'comb-enable': of_comb_enable,
    'static-guard': of_static_guard, 'static-shape': of_static_shape, 'call-shape': of_call_shape, 'comb-cycle': of_comb_cycle, 'race': of_race,
    'limit': of_limit, 'too-large': of_too_large,
}
