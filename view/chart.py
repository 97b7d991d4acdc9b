"""A picture (SVG) of one or two timed runs: what each node does in each cycle, one run below another, along one axis of cycles.

A row is a node. What its processor does stands in the upper half of the row, what its controller does in the lower one, each from start to finish. A
line is a message, from when it has its sender's port to its delivery.
"""
from dataclasses import dataclass
from html import escape

import colours
from frames import ViewError
from picture import text

WIDE, LEFT, RIGHT, ROW, LANE, HEAD, LEGEND, FOOT = 960, 76, 20, 18, 7, 30, 58, 44
MOST_MARKS = 16
LETTER = 7.6
AT_HOME = ('RREQ', 'WREQ', 'REPM', 'UPDATE', 'ACKC')
INSTRUCTION, HOME, CACHE, HANDLER, EVICTION = 'instruction', 'delivery at a home', 'delivery at a cache', 'handler', 'eviction'
FILLS = {INSTRUCTION: '#000000', HOME: '#0072b2', CACHE: '#56b4e9', HANDLER: '#d55e00', EVICTION: '#cc79a7'}
WHATS = {'turn': INSTRUCTION, 'miss': INSTRUCTION, 'handler': HANDLER, 'eviction': EVICTION}


@dataclass(frozen=True)
class Window:
    """The cycles that are drawn, from the first to the one behind the last, and where they stand in pixels."""
    first: int
    last: int

    def place(self, cycle):
        """Where a cycle stands from left to right."""
        return LEFT + (cycle - self.first) * (WIDE - LEFT - RIGHT) / (self.last - self.first)

    def meets(self, begin, end):
        """Whether some of the cycles between two are drawn."""
        return begin < self.last and end > self.first

    def shows(self, way):
        """Whether a message is drawn: one to another node, all of whose way lies between the ends."""
        return way.sender != way.receiver and self.first <= way.leaves and way.comes < self.last

    def cut(self, cycle):
        """A cycle, or the end of the window that is nearer to it."""
        return min(max(cycle, self.first), self.last)

    def marks(self):
        """The cycles with a mark: multiples of 1, 2 or 5 times a power of ten, of which there aren't too many."""
        steps = (times * 10 ** power for power in range(20) for times in (1, 2, 5))
        step = next(step for step in steps if (self.last - self.first) / step <= MOST_MARKS)
        return range(-(-self.first // step) * step, self.last + 1, step)


@dataclass(frozen=True)
class Bar:
    """An event: its node, what it is, the half of its row, its cycles from start to finish, and its name."""
    node: int
    what: str
    lane: int
    begin: int
    end: int
    name: str


@dataclass(frozen=True)
class Way:
    """A message: its kind, its sender with the cycle in which it leaves, and its receiver with the cycle in which it is delivered."""
    kind: str
    sender: int
    leaves: int
    receiver: int
    comes: int


@dataclass(frozen=True)
class Drawn:
    """What is drawn of a run: its title, its bars and its messages."""
    title: str
    bars: list
    ways: list

    def nodes(self):
        """The nodes that have an event, in order."""
        return sorted({bar.node for bar in self.bars})

    def height(self):
        """The height of its panel in pixels."""
        return HEAD + ROW * len(self.nodes())


# ---- what is drawn


def bar_of(member):
    """The bar of an event of the timeline."""
    what = WHATS.get(member['cat']) or (HOME if member['args']['kind'] in AT_HOME else CACHE)
    return Bar(member['pid'] - 1, what, int(what in (HOME, CACHE, EVICTION)), member['ts'], member['ts'] + member['dur'], member['name'])


def drawn_of(title, members, first, last):
    """What is drawn of the members of a timeline in a range of cycles, of which the last may be open."""
    bars, left, ways = [], {}, []
    for member in members:
        phase = member['ph']
        if phase == 'X' and member['cat'] != 'port' and member['ts'] + member['dur'] > first and (last is None or member['ts'] < last):
            bars.append(bar_of(member))
        elif phase in 'st' and member['cat'] == 'message':
            left[member['id']] = member
        elif phase == 'f' and member['cat'] == 'message':
            sent = left.pop(member['id'])
            ways.append(Way(member['name'], sent['pid'] - 1, sent['ts'], member['pid'] - 1, member['ts']))
    if not bars:
        raise ViewError(f'{title}: no event is between these cycles')
    return Drawn(title, bars, ways)


# ---- the picture


def bar_drawn(window, rows, bar):
    """A bar, with its name for who points at it."""
    left, right = (window.place(window.cut(cycle)) for cycle in (bar.begin, bar.end))
    return (f'<rect x="{left:.1f}" y="{rows[bar.node] + 2 + LANE * bar.lane}" width="{max(right - left, 1):.1f}" height="{LANE}" fill="{FILLS[bar.what]}">'
            f'<title>{escape(bar.name)} at node {bar.node}, {bar.begin} to {bar.end}</title></rect>')


def way_drawn(window, rows, way):
    """The line of a message."""
    ends = (window.place(way.leaves), rows[way.sender] + ROW / 2, window.place(way.comes), rows[way.receiver] + ROW / 2 + LANE / 2)
    return '<path d="M{:.1f} {:g}L{:.1f} {:g}" stroke="{}" stroke-width="0.8"/>'.format(*ends, colours.KINDS[way.kind])


def panel(window, run, top):
    """A run below its title."""
    rows = {node: top + HEAD + ROW * at for at, node in enumerate(run.nodes())}
    yield text(LEFT, top + HEAD - 10, run.title, ' font-weight="bold"')
    for node, y in rows.items():
        yield f'<rect x="{LEFT}" y="{y}" width="{WIDE - LEFT - RIGHT}" height="{ROW - 1}" fill="#000" fill-opacity="0.05"/>'
        yield text(LEFT - 6, y + ROW - 4, f'node {node}', ' text-anchor="end" font-size="12"')
    yield from (way_drawn(window, rows, way) for way in run.ways if window.shows(way))
    yield from (bar_drawn(window, rows, bar) for bar in run.bars if window.meets(bar.begin, bar.end))


def legend(shapes, y):
    """A row of shapes with their names."""
    left = LEFT
    for name, shape in shapes.items():
        yield shape.format(left=left, right=left + 18, top=y - 11, middle=y - 5) + text(left + 24, y, name)
        left += 48 + round(LETTER * len(name))


def legends(window, runs):
    """What the colours are: those of bars, and below them those of messages."""
    whats, kinds = {bar.what for run in runs for bar in run.bars}, {way.kind for run in runs for way in run.ways if window.shows(way)}
    bars = {what: f'<rect x="{{left}}" y="{{top}}" width="18" height="12" fill="{fill}"/>' for what, fill in FILLS.items() if what in whats}
    ways = {kind: f'<path d="M{{left}} {{middle}}H{{right}}" stroke="{colour}" stroke-width="1.6"/>' for kind, colour in colours.KINDS.items() if kind in kinds}
    yield from legend(bars, 22)
    yield from legend(ways, 44)


def axis(window, bottom):
    """The marks of cycles, one below another in all panels."""
    for mark in window.marks():
        x = window.place(mark)
        yield f'<path d="M{x:.1f} {LEGEND}V{bottom}" stroke="#bbb" stroke-width="0.7"/>' + text(round(x, 1), bottom + 16, str(mark), ' text-anchor="middle" font-size="12"')
    yield text((LEFT + WIDE - RIGHT) / 2, bottom + 36, 'cycle of the run', ' text-anchor="middle"')


def picture(runs, first, last):
    """The picture of runs, from a cycle to another one, or to their end."""
    window = Window(first, last or max(bar.end for run in runs for bar in run.bars))
    top, bottom = LEGEND, LEGEND + sum(run.height() for run in runs)
    parts = [*legends(window, runs), *axis(window, bottom)]
    for run in runs:
        parts += panel(window, run, top)
        top += run.height()
    return (f'<svg xmlns="http://www.w3.org/2000/svg" width="{WIDE}" height="{bottom + FOOT}" font-family="sans-serif" font-size="14">\n'
            f'<rect width="100%" height="100%" fill="{colours.PAPER}"/>\n' + '\n'.join(parts) + '\n</svg>\n')
