"""What statements drive and read, what rests on state, and which ports go round in a circle: docs/MEANING.md, 'What rules speak of', to explain what `check` tells."""
import cells


def groups_of(part, statement):
    """The groups of a statement, those of its tests and calls too, each with the statement that names it."""
    for it in statement.all():
        name = {'enable': it.name, 'invoke': f'invoke {it.called}'}.get(it.kind, it.comb)
        if name in part.groups:
            yield part.groups[name], it


def driven(part, statement):
    """The assignments of a statement that drive a port of a cell, by cell."""
    found = {}
    for group, it in groups_of(part, statement):
        for assign in group.assigns:
            if assign.target.cell:
                found.setdefault(assign.target.cell, []).append((group, assign, it))
    return found


def named(part, statement):
    """By cell, the operands of sources, guards and conditions of a statement that name it, with their group."""
    found = {}
    for group, it in groups_of(part, statement):
        for assign in group.assigns:
            for operand in assign.read():
                if operand.cell:
                    found.setdefault(operand.cell, []).append((group, operand))
    for it in statement.all():
        if it.test and it.test.cell:
            found.setdefault(it.test.cell, []).append((None, it.test))
    return found


def read_by_continuous(part, names):
    """By cell that is read by way of continuous assignments: the assignment that reads it, and the cell that it is read for."""
    found, left = {}, list(names)
    while left:
        name = left.pop()
        for assign in part.assigns:
            if assign.target.cell == name:
                for operand in assign.read():
                    if operand.cell and operand.cell not in found and operand.cell not in names:
                        found[operand.cell] = assign, name
                        left.append(operand.cell)
    return found


def enabled(statement, name):
    """The enables of a group in a statement."""
    return [it for it in statement.all() if it.kind == 'enable' and it.name == name]


def no_state(design, part, operand, seen=()):
    """The way from an operand to what is no state: a list of texts, empty where all rests on state."""
    port = cells.port_of(design, part, operand)
    if port is None or port.side == 'registered' or not operand.cell or operand.text in seen:
        return [f'{operand.text} waits for itself'] if operand.text in seen else []
    if part.cell(operand.cell).kind in design.by_name:
        return []
    kind = part.cell(operand.cell).kind
    way = f'`{operand.text}` of `{kind}` is computed in the same cycle'
    for name in cells.inputs_of_output(kind, operand.port):
        text = f'{operand.cell}.{name}'
        for group, assign in part.all_assigns():
            if assign.target.text != text:
                continue
            if group is not None:
                return [way, f'`{text}` is driven in line {assign.line} by group `{group.name}`']
            for inner in assign.read():
                rest = no_state(design, part, inner, (*seen, operand.text))
                if rest:
                    return [way, f'`{text}` takes `{inner.text}` in line {assign.line}', *rest]
    return []


def circle(design, part, group):
    """The assignments and ports of a circle under the continuous assignments and one group: pairs of a port and what it waits for it by; None where none is."""
    after = {}
    for assign in [*part.assigns, *(group.assigns if group else [])]:
        for operand in assign.read():
            after.setdefault(assign.target.text, []).append((operand.text, assign))
    for cell in part.cells:
        if cell.kind not in design.by_name:
            for port in cells.cell_ports(design, cell):
                if port.side == 'out':
                    after[f'{cell.name}.{port.name}'] = [(f'{cell.name}.{name}', cell) for name in cells.inputs_of_output(cell.kind, port.name)]
    done = set()
    for start in list(after):
        found = walk(after, start, done)
        if found:
            return found
    return None


def walk(after, start, done):
    """A circle that is reached from a port, by depth first search without recursion."""
    path, on_path, stack = [], {}, [(start, iter(after.get(start, ())))]
    on_path[start] = 0
    while stack:
        port, ways = stack[-1]
        step = next(ways, None)
        if step is None:
            stack.pop()
            done.add(port)
            del on_path[port]
            if path:
                path.pop()
            continue
        target, by = step
        if target in on_path:
            return [*path[on_path[target]:], (port, by)]
        if target not in done:
            path.append((port, by))
            on_path[target] = len(path)
            stack.append((target, iter(after.get(target, ()))))
    return None


def length_of(part, statement):
    """The length of static control in cycles; the statement that is not static where there is one."""
    if statement.kind == 'enable':
        group = part.groups.get(statement.name)
        return group.length if group and group.length is not None else statement
    if statement.kind == 'invoke' and statement.static:
        return statement.cycles
    if statement.kind in ('while', 'invoke') or not statement.static:
        return statement
    lengths = [length_of(part, it) for it in statement.parts if it.kind != 'empty']
    wrong = next((it for it in lengths if not isinstance(it, int)), None)
    if wrong is not None:
        return wrong
    if statement.kind == 'seq':
        return sum(lengths)
    if statement.kind == 'repeat':
        return statement.count * sum(lengths)
    return max(lengths, default=0)
