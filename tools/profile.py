#!/usr/bin/env python3
"""Where the turns of a run go.

    tools/profile.py DESIGN DATA [TURNS] [--flame SVG] [--timeline SVG] [--from TURN] [--to TURN] [--counts FILE]

DESIGN and DATA are the files that `interp` takes, and TURNS its budget (1,000,000 if left out). Printed are

  - how many turns each group is active, the most first, with its part of all turns, its instance and its line; a group that is never active too; below a
    group of a static component that is invoked more than once each invoke, with the turns that were seen of it, and its line;
  - of each `par` how long its arms take, which is the slowest, and how long the others wait for it;
  - on what the turns pass: on the groups, on the turns in which a group is seen to be done, on tests, on idle turns, and on calls, each turn once. While a
    `par` runs that is its arm that ends last.

Counts are those of `calyx_cli profile`, or of a file of what it wrote; where the program does not know the command they are counted here, and that is told.
The pictures are SVG, which any browser shows: `--flame` has a bar for each statement, as wide as the turns that pass in it, above the statement that it stands
in; `--timeline` has a lane for each arm and each instance over the turns, of all turns or from one to another; of a static component's instance by its groups. A name is shown where the mouse is.
"""
import re
import sys

import activity
import design as designs
import flattening
import given
import pictures
import program

OPTIONS = {'--flame': str, '--timeline': str, '--from': int, '--to': int, '--counts': str}
KINDS = {'group': 'groups are active', 'done': 'a group is seen to be done', 'test': 'tests of `if` and `while`', 'idle': 'idle turns', 'call': 'calls, beside what they call',
         'island': 'islands, without a group'}


def options_of(words):
    """The words without options, and the options."""
    rest, found, left = [], {}, list(words)
    while left:
        word = left.pop(0)
        if word.startswith('--'):
            if word not in OPTIONS or not left:
                sys.exit(__doc__.strip())
            value = left.pop(0)
            if OPTIONS[word] is int and not value.isdigit():
                sys.exit(__doc__.strip())
            found[word] = OPTIONS[word](value)
        else:
            rest.append(word)
    return rest, found


def read_counts(text):
    """The turns and the counts by path, of what `calyx_cli profile` wrote."""
    first, *lines = text.split('\n')
    turns = re.match(r'\{"cycles":(\d+),', first)
    counts = [re.fullmatch(r'active (\S+) (\d+)', line) for line in lines if line]
    if not turns or not all(counts):
        sys.exit('profile: these are no lines of `calyx_cli profile`')
    return int(turns.group(1)), {it.group(1): int(it.group(2)) for it in counts}


def counted(path, data_path, turns, run):
    """The counts by path, by the program or by what was seen of the run."""
    status, out, told = program.run('profile', path, data_path, turns)
    if status == 1 and told.strip() == 'words':
        print('profile: this program has no command `profile`; the counts are those of a run of the text of `compile`', file=sys.stderr)
        return seen(run)
    if status:
        sys.exit(told.strip())
    return read_counts(out.decode())


def seen(run):
    """The counts of the groups that are no calls, in the order of `calyx_cli profile`."""
    found = {}
    for (path, name), stretches in run.groups.items():
        part = next(lane.part for lane in run.lanes if lane.path == path)
        if not part.groups[name].comb and part.groups[name].call is None and name not in call_groups(run.design, part):
            whole = f'{part.groups[name].copied.cell}.{part.groups[name].copied.name}' if part.groups[name].copied else name
            whole = f'{path}.{whole}' if path else whole
            found[whole] = found.get(whole, 0) + sum(it.turns for it in stretches)
    return run.turns, found


def call_groups(design, part):
    """The groups that drive the `go` of an instance of a component."""
    instances = {cell.name for cell in part.cells if cell.kind in design.by_name}
    return {group.name for group, assign in part.all_assigns() if group and assign.target.cell in instances and assign.target.port == 'go'}


def table(titles, rows):
    """Rows in columns, numbers to the right."""
    texts = [[str(word) for word in row] for row in rows]
    widths = [max(map(len, column)) for column in zip(titles, *texts)]
    right = [all(re.fullmatch(r'[\d.,%-]+', row[at]) for row in texts) for at in range(len(titles))]
    for row in (titles, *texts):
        yield '  '.join(word.rjust(width) if to_right else word.ljust(width) for word, width, to_right in zip(row, widths, right)).rstrip()


def component_at(design, path):
    """The component of the instance at a path; None where none stands there."""
    part = design.by_name['main']
    for name in path.split('.') if path else ():
        cell = part.cell(name) if part else None
        part = design.by_name.get(cell.kind) if cell else None
    return part


def group_rows(design, run, turns, counts):
    """A row for each counted group, the most active first, and behind it one for each invoke by which it runs, where there are more."""
    inner = {one.path: one for lane in run.lanes for one in run.inner(lane)}
    for path, count in sorted(counts.items(), key=lambda it: (-it[1], it[0])):
        instance, _, name = path.rpartition('.')
        part = component_at(design, instance)
        group = part.groups.get(name) if part else None
        yield name, count, percent(count, turns), instance or 'main', group.line if group else '-'
        copies = inner[instance].copies.get(name, ()) if instance in inner else ()
        for copy, stretches in copies if len(copies) > 1 else ():
            active = sum(it.turns for it in stretches)
            yield copy_name(copy), active, percent(active, turns), '', ','.join(str(it.line) for it in copy.copied.invokes)


def copy_name(copy):
    """The invokes that lead to a copy of a group, the outermost first."""
    return '  by ' + ' / '.join(designs.call_name(it) for it in copy.copied.invokes)


def percent(part, whole):
    return f'{100 * part / whole:.1f}%' if whole else '-'


class Rounds:
    """What was seen of a `par`: how often it ran, its turns, and of each arm its turns and how often it was the slowest."""

    def __init__(self, lane, par, arms):
        self.lane, self.par, self.arms = lane, par, arms
        self.times, self.turns = 0, 0
        self.taken, self.slowest = [0] * len(arms), [0] * len(arms)

    def add(self, stretch):
        taken = [lasted(arm, stretch) for arm in self.arms]
        self.times, self.turns = self.times + 1, self.turns + stretch.turns
        self.slowest[taken.index(max(taken))] += 1
        self.taken = [before + now for before, now in zip(self.taken, taken)]


def lasted(arm, stretch):
    """How many turns of a round an arm takes, from the beginning to its end."""
    parts = arm.within(stretch.begin, stretch.end)
    return parts[-1].end - stretch.begin if parts else 0


def pars(run):
    """What was seen of each `par` that ran, the one with the most waiting first."""
    found = []
    for lane in run.lanes:
        for par in {id(it.of): it.of for it in lane.stretches if it.of.kind == 'par' and not it.of.static and it.of.parts}.values():
            rounds = Rounds(lane, par, run.arms(lane, par))
            for stretch in lane.stretches:
                if stretch.of is par:
                    for one in run.rounds(lane, stretch):
                        rounds.add(one)
            found.append(rounds)
    return sorted(found, key=lambda it: sum(it.taken) - len(it.arms) * it.turns)


def par_lines(rounds):
    """The arms of a `par`, as a table."""
    arms = len(rounds.arms)
    yield (f'par in line {rounds.par.line} ({rounds.lane.path or "main"}): {rounds.times} time{"s" if rounds.times > 1 else ""}, {rounds.turns} turns; '
           f'{arms} arm{"s" if arms > 1 else ""} wait {arms * rounds.turns - sum(rounds.taken)} turns in all')
    slowest = rounds.slowest.index(max(rounds.slowest))
    rows = [(number + 1, arm.root.told(), arm.root.line, rounds.taken[number], rounds.turns - rounds.taken[number], rounds.slowest[number], '<- the slowest' if number == slowest else '')
            for number, arm in enumerate(rounds.arms)]
    for line in table(('arm', 'statement', 'line', 'turns', 'waits', 'times slowest', ''), rows):
        yield f'  {line}'


class Passed:
    """On what the turns pass, each once: of each way of statements that lead to a leaf, and of each kind of leaf. While a `par` runs its slowest arm counts."""

    def __init__(self, run):
        self.run, self.ways, self.kinds = run, {}, dict.fromkeys(KINDS, 0)
        main = run.child('')
        self.lane(main, 0, run.turns, ('main',))

    def put(self, way, kind, turns):
        if turns:
            self.ways[way] = self.ways.get(way, 0) + turns
            self.kinds[kind] += turns

    def lane(self, lane, begin, end, way):
        """The turns from one to another in a lane. What nothing stands for is idle."""
        at = begin
        for stretch in lane.within(begin, end):
            self.put(way + ('idle',), 'idle', stretch.begin - at)
            self.stretch(lane, stretch, way + tuple(enclosing(lane.root, stretch.of)))
            at = stretch.end
        self.put(way + ('idle',), 'idle', end - at)

    def stretch(self, lane, stretch, way):
        statement = stretch.of
        if statement.static:
            self.island(lane, stretch, way)
        elif statement.kind == 'par' and statement.parts:
            for one in self.run.rounds(lane, stretch):
                arm = max(self.run.arms(lane, statement), key=lambda it, one=one: lasted(it, one))
                self.lane(arm, one.begin, one.end, way + (f'arm {arm.arm + 1}',))
        elif statement.kind in ('if', 'while'):
            self.put(way + ('test',), 'test', stretch.turns)
        elif self.run.called(lane, statement):
            self.call(self.run.called(lane, statement), stretch, way)
        elif statement.kind == 'enable':
            active = sum(it.turns for it in self.run.active(lane.path, statement.name, stretch.begin, stretch.end))
            self.put(way, 'group', active)
            self.put(way + ('done',), 'done', stretch.turns - active)
        else:
            self.put(way, 'idle' if statement.kind != 'invoke' else 'call', stretch.turns)

    def call(self, child, stretch, way):
        """A call: what the instance does, and what is left."""
        parts = child.within(stretch.begin, stretch.end)
        if not parts:
            self.put(way, 'call', stretch.turns)
            return
        first, last = parts[0].begin, parts[-1].end
        self.lane(child, first, last, way + (f'{child.path} ({child.part.name})',))
        self.put(way + ('call',), 'call', stretch.turns - (last - first))

    def island(self, lane, stretch, way):
        """An island: what groups it has active, turn by turn."""
        for begin, end, active in pictures.changes(self.run, lane, stretch):
            self.put(way + ((' & '.join(active),) if active else ('island',)), 'group' if active else 'island', end - begin)


def enclosing(root, statement):
    """The statements from one down to another in it, both among them, as words."""
    def down(at):
        if at is statement:
            return [at]
        return next(([at, *found] for found in (down(part) for part in at.parts) if found), [])
    return [f'{it.told()} (line {it.line})' for it in down(root)]


def report(design, run, turns, counts):
    """All that is printed."""
    yield f'{turns} turns' + ('' if run.is_whole else f'; what follows was seen of the first {run.turns}')
    yield ''
    yield from table(('group', 'active', 'of all', 'instance', 'line'), group_rows(design, run, turns, counts))
    found = pars(run)
    for rounds in found:
        yield ''
        yield from par_lines(rounds)
    yield ''
    passed = Passed(run)
    yield 'each turn once' + (', in a par those of the arm that ends last:' if found else ':')
    rows = [(KINDS[kind], count, percent(count, run.turns)) for kind, count in sorted(passed.kinds.items(), key=lambda it: -it[1]) if count]
    for line in table(('on what', 'turns', 'of all'), rows):
        yield f'  {line}'


def main():
    rest, chosen = options_of(sys.argv[1:])
    if not 2 <= len(rest) <= 3:
        sys.exit(__doc__.strip())
    path, data_path = rest[:2]
    budget = given.cycles(__doc__, rest[2:], 1000000)
    written = given.text_of(path, 'latin-1')
    text, told = program.compiled(written)
    if text is None:
        sys.exit(told)
    design = designs.read(written)
    run = activity.Activity(flattening.flattened(design), text, given.memories(data_path, text), budget)
    turns, counts = read_counts(given.text_of(chosen['--counts'])) if '--counts' in chosen else counted(path, data_path, str(budget), run)
    print('\n'.join(report(design, run, turns, counts)))
    if '--flame' in chosen:
        pictures.save(chosen['--flame'], pictures.flame(Passed(run).ways, run.turns))
    if '--timeline' in chosen:
        pictures.save(chosen['--timeline'], pictures.timeline(run, chosen.get('--from', 0), min(chosen.get('--to', run.turns), run.turns)))


if __name__ == '__main__':
    try:
        main()
    except BrokenPipeError:
        sys.stderr.close()
