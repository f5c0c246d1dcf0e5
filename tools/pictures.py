"""Pictures of where turns go, as SVG: a flame graph of ways of statements, and a timeline of lanes. tools/profile.py makes them."""
import html
import re

import activity

WIDTH, ROW, LETTER = 1240, 20, 6.6
LEFT, RIGHT = 250, 10
MOST_LANES, MOST_NAMES, MOST_TALL = 150, 14, 24
PILE = 3
COLOURS = ('#4e79a7', '#f28e2b', '#59a14f', '#e15759', '#76b7b2', '#edc948', '#b07aa1', '#9c755f', '#ff9da7', '#86bcb6', '#d4a6c8', '#8cd17d')
OTHER, PLAIN = '#bab0ac', {'test': '#aec7e8', 'done': '#d9d9d9', 'idle': '#eeeeee', 'call': '#cfe8cf', 'island': '#e7d8f0'}
HEAD = ('<svg xmlns="http://www.w3.org/2000/svg" width="{width}" height="{height}" viewBox="0 0 {width} {height}" font-family="monospace" font-size="11">\n'
        '<rect width="{width}" height="{height}" fill="white"/>\n')


def save(path, text):
    with open(path, 'w', encoding='utf-8') as to:
        to.write(text)


def stem(name):
    """A name without the number behind it, and without the static cells before it: groups that are copies of one another have one colour."""
    return re.sub(r'\d+$', '', re.sub(r'[^&]*\.', ' ', name).strip())


class Colours:
    """A colour for each stem, those of the most turns first."""

    def __init__(self, turns_by_name):
        turns = {}
        for name, count in turns_by_name.items():
            turns[stem(name)] = turns.get(stem(name), 0) + count
        self.order = sorted(turns, key=lambda it: -turns[it])
        self.names = {it: {name for name in turns_by_name if stem(name) == it} for it in self.order}
        self.colours = {it: COLOURS[at] if at < len(COLOURS) else OTHER for at, it in enumerate(self.order)}

    def of(self, name):
        return PLAIN.get(name) or self.colours.get(stem(name), OTHER)

    def legend(self, y):
        """The names with their colours, in lines; and the height that they take."""
        parts, x = [], 10
        for it in self.order[:MOST_NAMES]:
            names = self.names[it]
            told = next(iter(names)) if len(names) == 1 else f'{it}.. ({len(names)})'
            if x + 20 + len(told) * LETTER > WIDTH:
                x, y = 10, y + ROW
            parts.append(f'<rect x="{x}" y="{y}" width="12" height="12" fill="{self.colours[it]}"/>' + text(x + 16, y + 10, told))
            x += 30 + len(told) * LETTER
        return parts, y + ROW


def text(x, y, told, anchor='start', fill='#222'):
    return f'<text x="{x:.1f}" y="{y:.1f}" text-anchor="{anchor}" fill="{fill}">{html.escape(told)}</text>'


def bar(x, y, width, told, colour, hint, opacity=1.0):
    """A bar with its name, where there is room, and what is shown where the mouse is."""
    room = int((width - 4) / LETTER)
    shown = told if len(told) <= room else told[:room - 2] + '..' if room > 4 else ''
    faint = f' fill-opacity="{opacity}"' if opacity < 1 else ''
    edge = ' stroke="white" stroke-width="0.5"' if width > 2 else ''
    return (f'<g><title>{html.escape(hint)}</title><rect x="{x:.2f}" y="{y:.1f}" width="{max(width, 0.2):.2f}" height="{ROW - 2}" fill="{colour}"{faint}{edge}/>'
            + (text(x + 3, y + ROW - 7, shown) if shown else '') + '</g>')


def flame(ways, turns):
    """A bar for each way's statement, as wide as its turns, above the statement that it stands in."""
    tree = {}
    for way, count in ways.items():
        for depth in range(1, len(way) + 1):
            tree[way[:depth]] = tree.get(way[:depth], 0) + count
    leaves = {}
    for way, count in ways.items():
        leaves[way[-1]] = leaves.get(way[-1], 0) + count
    colours = Colours({name.split(' (line')[0]: count for name, count in leaves.items() if name not in PLAIN})
    depth = max((len(way) for way in ways), default=1)
    children = {}
    for way in tree:
        children.setdefault(way[:-1], []).append(way)
    parts, height = [], ROW * depth + 50
    scale = (WIDTH - 20) / max(turns, 1)

    def put(way, x):
        width = tree[way] * scale
        if width < 0.15:
            return
        name = way[-1].split(' (line')[0]
        is_leaf = way in ways or name in PLAIN
        colour = colours.of(name) if is_leaf or stem(name) in colours.colours else '#f3e3c3'
        parts.append(bar(x, height - 30 - ROW * len(way), width, name, colour, f'{" / ".join(way)}: {tree[way]} turns, {100 * tree[way] / max(turns, 1):.1f}%'))
        for child in children.get(way, ()):
            put(child, x)
            x += tree[child] * scale
    for root in children.get((), ()):
        put(root, 10)
    told = f'{turns} turns: a bar is as wide as the turns that pass in it, above what it stands in; of the arms of a par the one that ends last'
    return HEAD.format(width=WIDTH, height=height) + text(10, 16, told) + '\n' + '\n'.join(parts) + '\n</svg>\n'


def ticks(begin, end):
    """Round numbers between two turns, a dozen at most."""
    step = 1
    while (end - begin) / step > 12:
        step *= 5 if str(step)[0] == '2' else 2
    return range(-(-begin // step) * step, end + 1, step)


def pieces(run, lane, begin, end):
    """What goes on in a lane: the first turn, the one behind the last, the name, what it is, and the line."""
    if isinstance(lane, activity.Inner):
        lines = {name: found[0][0].line for name, found in lane.copies.items()}
        yield from ((first, last, ' & '.join(now), 'group', lines[now[0]]) for first, last, now in changes_of(lane.active(begin, end), begin, end) if now)
        return
    for it in lane.within(begin, end):
        statement, told = it.of, it.of.told()
        if statement.static:
            yield from island(run, lane, it)
        elif statement.kind == 'enable':
            yield it.begin, it.end, statement.name, 'group', statement.line
        elif statement.kind in ('if', 'while'):
            yield it.begin, it.end, 'test', told, statement.line
        elif statement.kind == 'par' and statement.parts:
            yield it.begin, it.end, 'par', 'par', statement.line
        elif statement.kind == 'invoke':
            yield it.begin, it.end, statement.told(), 'call', statement.line
        else:
            yield it.begin, it.end, 'idle', told, statement.line


def island(run, lane, stretch):
    """The groups of an island, from change to change."""
    for begin, end, now in changes(run, lane, stretch):
        yield begin, end, ' & '.join(now) or 'island', 'group' if now else 'island', stretch.of.line


def changes(run, lane, stretch):
    """Of an island, from change to change, the names of the groups that are active."""
    active = {name: run.active(lane.path, name, stretch.begin, stretch.end) for name in sorted({it.name for it in stretch.of.all() if it.kind == 'enable'})}
    yield from changes_of(active, stretch.begin, stretch.end)


def changes_of(active, begin, end):
    """From change to change between two turns, the names of those that are active, of stretches by names."""
    edges = sorted({(begin, '', 0), *((turn, name, step) for name, found in active.items() for it in found for turn, step in ((it.begin, 1), (it.end, -1)))})
    now, at = set(), begin
    for turn, name, step in edges:
        if turn > at:
            yield at, turn, sorted(now)
            at = turn
        if step:
            (now.add if step > 0 else now.discard)(name)
    if at < end:
        yield at, end, sorted(now)


def shares_of(found, begin, scale, size):
    """How much of each bin of so many pixels each piece takes, by bins."""
    bins = {}
    for piece in found:
        first, last = (piece[0] - begin) * scale / size, (piece[1] - begin) * scale / size
        for at in range(int(first), int(last) + 1):
            share = min(last, at + 1) - max(first, at)
            if share > 0:
                shares = bins.setdefault(at, {})
                shares[piece[2:]] = shares.get(piece[2:], 0) + share
    return bins


def most_of(bins):
    """Of each bin what takes the most of it, those of one kind beside each other put together."""
    joined = []
    for at in sorted(bins):
        most = max(bins[at], key=bins[at].get)
        if joined and joined[-1][1] == at and joined[-1][2] == most:
            joined[-1][1] = at + 1
        else:
            joined.append([at, at + 1, most])
    return joined


def in_order(run):
    """The lanes that had something to do, each behind that in which it stands, with how deep it is."""
    def below(around, depth):
        for lane in run.lanes:
            if lane.around is around and lane.stretches:
                yield lane, depth
                yield from ((one, depth + 1 + one.path.removeprefix(f'{lane.path}.').count('.')) for one in run.inner(lane) if one.has_run())
                yield from below(lane, depth + 1)
    yield from below(None, 0)


def timeline(run, begin, end):
    """A lane for each instance and each arm, over the turns from one to another."""
    lanes = list(in_order(run))
    left_out, lanes = max(len(lanes) - MOST_LANES, 0), lanes[:MOST_LANES]
    found = [list(pieces(run, lane, begin, end)) for lane, _ in lanes]
    turns = {}
    for piece in (piece for one in found for piece in one):
        if piece[3] in ('group', 'call'):
            turns[piece[2]] = turns.get(piece[2], 0) + piece[1] - piece[0]
    colours = Colours(turns)
    scale = (WIDTH - LEFT - RIGHT) / max(end - begin, 1)
    legend, top = colours.legend(28)
    top += ROW
    height = top + ROW * len(lanes) + 40
    parts = [text(10, 16, f'turns {begin} to {end}' + (f' of {run.turns}' if (begin, end) != (0, run.turns) else '') + (f'; {left_out} lanes more are not shown' if left_out else '')), *legend]
    for at in ticks(begin, end):
        x = LEFT + (at - begin) * scale
        parts.append(f'<line x1="{x:.1f}" y1="{top - 4}" x2="{x:.1f}" y2="{height - 32}" stroke="#ccc" stroke-width="0.5"/>' + text(x, height - 18, str(at), 'middle'))
    for row, ((lane, depth), one) in enumerate(zip(lanes, found)):
        y = top + ROW * row
        told = ' ' * depth + (lane.told() if lane.par is None else f'arm {lane.arm + 1} of line {lane.par.line}')
        parts.append(f'<g><title>{html.escape(lane.told())}</title>{text(6 + 10 * depth, y + ROW - 7, told.strip()[:int((LEFT - 16 - 10 * depth) / LETTER)])}</g>')
        parts.append(f'<rect x="{LEFT}" y="{y}" width="{WIDTH - LEFT - RIGHT}" height="{ROW - 2}" fill="#f7f7f7"/>')
        parts += drawn(one, y, begin, scale, colours, len(lanes) <= MOST_TALL)
    return HEAD.format(width=WIDTH, height=height) + '\n'.join(parts) + '\n</svg>\n'


def drawn(found, y, begin, scale, colours, is_tall):
    """The bars of a lane. Where they are narrower than a pixel, each three pixels are a pile of what passes in them; of many lanes each pixel has what takes the most of it."""
    narrow = [last - first for first, last, *_ in found if (last - first) * scale < 1]
    if not narrow:
        for first, last, name, kind, line in found:
            hint = f'{told_of(name, kind)} (line {line}): turns {first} to {last - 1}'
            yield bar(LEFT + (first - begin) * scale, y, (last - first) * scale, name, colour_of(name, kind, colours), hint)
    elif is_tall:
        yield from piles(shares_of(found, begin, scale, PILE), y, begin, scale, colours)
    else:
        for first, last, (name, kind, line) in most_of(shares_of(found, begin, scale, 1)):
            hint = f'{told_of(name, kind)} (line {line}), about turn {begin + int(first / scale)}'
            yield bar(LEFT + first, y, last - first, name if last - first > 30 else '', colour_of(name, kind, colours), hint)


def piles(bins, y, begin, scale, colours):
    """A pile for each bin, what passes most at the bottom."""
    ranks = {}
    for shares in bins.values():
        for what, share in shares.items():
            ranks[what] = ranks.get(what, 0) + share
    for at, shares in bins.items():
        low = y + ROW - 2
        for what in sorted(shares, key=lambda it: -ranks[it]):
            name, kind, line = what
            height = shares[what] * (ROW - 2)
            low -= height
            hint = f'{told_of(name, kind)} (line {line}): {100 * shares[what]:.0f}% of turns {begin + int(at * PILE / scale)} to {begin + int((at + 1) * PILE / scale)}'
            yield (f'<g><title>{html.escape(hint)}</title><rect x="{LEFT + at * PILE}" y="{low:.1f}" width="{PILE}" height="{height:.1f}" '
                   f'fill="{colour_of(name, kind, colours)}"/></g>')


def told_of(name, kind):
    return name if kind in ('group', 'call', 'par') else kind


def colour_of(name, kind, colours):
    return '#f3e3c3' if kind == 'par' else colours.of(name)
