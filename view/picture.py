"""A picture (SVG) of a frame: the mesh, what each node has of one line, and the messages on their way, each along its route."""
from collections import Counter
from dataclasses import dataclass, field
from html import escape

import colours
import frames
from alewife import digest_of

WIDE, ROW, ACROSS, DOWN, MARGIN = 200, 18, 50, 40, 18
SIZE, LETTERS, LETTER = 14, 22, 8.5
EVENTS = {'I': 'runs', 'D': 'takes', 'H': 'handler', 'E': 'evicts'}


@dataclass
class Node:
    """What a node's box says: the status of its contexts, its rows, and the mode of its copy of the followed line."""
    statuses: list = field(default_factory=list)
    rows: list = field(default_factory=list)
    copy: str = ''


@dataclass(frozen=True)
class Mesh:
    """The mesh, with the height of a node's box."""
    width: int
    height: int
    tall: int

    def corner(self, node):
        """The upper left corner of a node's box."""
        return MARGIN + node % self.width * (WIDE + ACROSS), MARGIN + 12 + node // self.width * (self.tall + DOWN)

    def size(self):
        """The width and height of the picture without the text below."""
        left, top = self.corner(self.width * self.height - 1)
        return left + WIDE + MARGIN, top + self.tall + MARGIN

    def wires(self):
        """All wires, each from a node to a neighbour."""
        for node in range(self.width * self.height):
            if (node + 1) % self.width:
                yield from ((node, node + 1), (node + 1, node))
            if node + self.width < self.width * self.height:
                yield from ((node, node + self.width), (node + self.width, node))

    def route(self, at, receiver):
        """The wires that a message crosses: along the row, then along the column."""
        while at != receiver:
            across, down = receiver % self.width - at % self.width, receiver - at
            after = at + (1 if across > 0 else -1) if across else at + (self.width if down > 0 else -self.width)
            yield at, after
            at = after

    def lane(self, wire, aside):
        """Where a wire begins and ends in the gap between two boxes, so far aside. A way there and the way back lie apart."""
        (left, top), forward = self.corner(min(wire)), wire[0] < wire[1]
        if abs(wire[0] - wire[1]) == 1 and self.width > 1:
            y = top + self.tall * (0.27 if forward else 0.73) + aside
            ends = (left + WIDE, y, left + WIDE + ACROSS, y)
        else:
            x = left + WIDE * (0.66 if forward else 0.34) + aside
            ends = (x, top + self.tall, x, top + self.tall + DOWN)
        return ends if forward else (*ends[2:], *ends[:2])


# ---- what a state says of a line


def home_rows(words):
    """A home's rows: its state and how many answers are due; its hardware pointers and its software set. Long sets are counted."""
    due = f' n {words[9]}' if words[9] != '0' else ''
    row = f'H {words[5]} S {words[7]}'
    if len(row) > LETTERS:
        counts = [0 if words[at] == '-' else len(words[at].split(',')) for at in (5, 7)]
        row = f'{counts[0]} in H {counts[1]} in S'
    return [f'home {words[2]}{due}', f' {row}']


def read_state(state, line):
    """The nodes of a state, with what their boxes say of a line, and its messages on their way."""
    width, height, contexts, per_node = state.image.sizes
    nodes = [Node([state.context(node * contexts + slot).status for slot in range(contexts)]) for node in range(width * height)]
    for node, mode in state.asked(line):
        nodes[node].rows.append(f'asks {mode}')
    for copy in state.copies(line):
        nodes[copy.node].rows.append(f'cache {copy.mode}')
        nodes[copy.node].copy = copy.mode
    if f'h{line}' in state.lines:
        nodes[line // per_node].rows += home_rows(state.home(line))
    for packet in state.packets():
        nodes[packet.receiver].rows += [f'queue {packet.kind} from {packet.sender}'] * (packet.line == line)
    return nodes, state.on_links()


def busiest_line(state):
    """The line of most messages on their way, of two the first; 0 where there is no message."""
    counts = Counter(message.line for message in state.on_links())
    return max(sorted(counts), key=counts.get, default=0)


# ---- drawing


def text(x, y, what, extra=''):
    """A text."""
    fill = '' if 'fill=' in extra else ' fill="#000"'
    return f'<text x="{x:g}" y="{y:g}"{fill}{extra}>{escape(what)}</text>'


def cut(what, most):
    """A text of at most so many letters."""
    return what if len(what) <= most else what[:most - 1] + '…'


def box(mesh, number, node, event):
    """A node's box: its number and statuses, in white on black with its event where it has one, and its rows. A box with a copy has a thick edge and
    the colour of its mode."""
    left, top = mesh.corner(number)
    ink, name = ' fill="#fff"' if event else '', f'node {number}'
    room = LETTERS - len(name) - 1 - (len(event) + 1 if event else 0)
    parts = [f'<rect x="{left}" y="{top}" width="{WIDE}" height="{mesh.tall}" fill="{colours.COPIES.get(node.copy, colours.PAPER)}" '
             f'stroke="#000" stroke-width="{3 if node.copy else 1}"/>',
             f'<rect x="{left}" y="{top}" width="{WIDE}" height="{ROW + 3}" fill="#000"/>' if event else '',
             text(left + 6, top + ROW - 3, name, f' font-weight="bold"{ink}'),
             text(left + 6 + LETTER * (len(name) + 1), top + ROW - 3, event, ink) if event else '',
             text(left + WIDE - 6, top + ROW - 3, cut(' '.join(node.statuses), room), f' text-anchor="end"{ink}')]
    return ''.join(parts) + ''.join(text(left + 6, top + (at + 2) * ROW + 1, cut(row, LETTERS)) for at, row in enumerate(node.rows))


def wire(mesh, ends, totals):
    """A wire, the thicker the more messages cross it in the whole run, and how many these are, where that is known."""
    x1, y1, x2, y2 = mesh.lane(ends, 0)
    load, most, forward = totals.get(ends, 0), max(totals.values(), default=1), ends[0] < ends[1]
    drawn = f'<path d="M{x1:g} {y1:g}L{x2:g} {y2:g}" stroke="#bbb" stroke-width="{1 + 9 * load / most:.3g}"/>'
    if not totals:
        return drawn
    if y1 == y2:
        _, top = mesh.corner(ends[0])
        return drawn + text((x1 + x2) / 2, top - 4 if forward else top + mesh.tall + 14, str(load), ' text-anchor="middle"')
    return drawn + text(x1 + (24 if forward else -24), (y1 + y2) / 2 + 5, str(load), '' if forward else ' text-anchor="end"')


def style(kind, is_other):
    """The colour and the stroke of a message's arrow: colour and dashes by its kind, thick with data, thin and grey where it is of another line."""
    dash, colour = colours.DASHES[kind], colours.OTHER if is_other else colours.KINDS[kind]
    dashes = f' stroke-dasharray="{dash}"' if dash else ''
    return colour, f'stroke="{colour}" stroke-width="{(3.4 if kind in colours.HEAVY else 2) - 0.8 * is_other:g}"{dashes}'


def head(x, y, right, down, colour):
    """The head of an arrow that ends at a place in a direction."""
    back, aside = (x - 10 * right, y - 10 * down), (4.4 * down, 4.4 * right)
    points = f'{x:g} {y:g} {back[0] + aside[0]:g} {back[1] + aside[1]:g} {back[0] - aside[0]:g} {back[1] - aside[1]:g}'
    return f'<path d="M{points}z" fill="{colour}"/>'


def arrow(x1, y1, x2, y2, message, arrives, line):
    """The arrow of a message over one wire, with a head where it arrives."""
    colour, drawn = style(message.kind, message.line != line)
    right, down, short = (x2 > x1) - (x2 < x1), (y2 > y1) - (y2 < y1), 9 if arrives else 0
    shaft = f'<path d="M{x1:g} {y1:g}L{x2 - short * right:g} {y2 - short * down:g}" {drawn}/>'
    return shaft + (head(x2, y2, right, down, colour) if arrives else '')


def arrows(mesh, ends, messages, line):
    """The messages that cross a wire, side by side, those that arrive first."""
    _, y1, _, y2 = mesh.lane(ends, 0)
    apart = min(8, (mesh.tall * 0.46 if y1 == y2 else 36) / len(messages))
    for at, message in enumerate(sorted(messages, key=lambda each: (each.receiver != ends[1], each.receiver))):
        place = mesh.lane(ends, (at - (len(messages) - 1) / 2) * apart)
        yield arrow(*place, message, message.receiver == ends[1], line)


def loop(mesh, message, line, place):
    """A message of a node to itself, as a bow over its box."""
    left, top = mesh.corner(message.sender)
    x, (colour, drawn) = left + 82 + 9 * place, style(message.kind, message.line != line)
    return f'<path d="M{x} {top}C{x} {top - 16} {x + 16} {top - 16} {x + 16} {top - 7}" {drawn}/>' + head(x + 16, top, 0, 1, colour)


def legend(width, top, stamp, messages, line, name):
    """What is on its way, with the stroke of each kind, in rows of a width below a place, and where they end."""
    said = f'line {line}{name and f" ({cut(name, 20)})"} at stamp {stamp}; ' + ('on their way:' if messages else 'nothing is on its way')
    x, y = MARGIN + LETTER * (len(said) + 2), top + ROW
    parts = [text(MARGIN, y, said)]
    counts = Counter((each.line != line, each.kind) for each in messages)
    for (is_other, kind), count in sorted(counts.items()):
        name = f'{count} {kind}' + (' of other lines' if is_other else '')
        across = 46 + LETTER * (len(name) + 2)
        if x + across > width:
            x, y = MARGIN, y + ROW + 2
        colour, drawn = style(kind, is_other)
        parts += [f'<path d="M{x:g} {y - 5}h38" {drawn}/>', text(x + 46, y, name, f' fill="{colour}"')]
        x += across
    return ''.join(parts), y + MARGIN


def crossings(mesh, messages):
    """The messages that cross each wire."""
    found = {}
    for message in messages:
        for ends in mesh.route(message.sender, message.receiver):
            found.setdefault(ends, []).append(message)
    return found


def loops(mesh, messages, line):
    """The messages that nodes have sent to themselves."""
    counts = Counter()
    for message in (each for each in messages if each.sender == each.receiver):
        yield loop(mesh, message, line, counts[message.sender])
        counts[message.sender] += 1


def events_at(run, stamp):
    """What each node does at a stamp."""
    events = map(str.split, run.events.get(stamp, []))
    return {int(words[2] if words[0] == 'D' else words[1]): EVENTS[words[0]] for words in events}


def picture(run, state, stamp, loads, line, name=''):
    """The picture of a state at a stamp, of a line and what lies in it. The loads of the wires are those of the whole run, or None."""
    (nodes, messages), events = read_state(state, line), events_at(run, stamp)
    rows = max(len(node.rows) for node in nodes)
    mesh = Mesh(*frames.start_of(run.image)['mesh'], ROW * (max(rows, 2) + 1) + 10)
    totals = {(sender, receiver): load for sender, receiver, load in loads or ()}
    width, height = mesh.size()
    width = max(width, MARGIN + round(LETTER * 48))
    told, height = legend(width, height, stamp, messages, line, name)
    parts = [f'<svg xmlns="http://www.w3.org/2000/svg" width="{width}" height="{height}" viewBox="0 0 {width} {height}" '
             f'font-family="monospace" font-size="{SIZE}" fill="none">',
             f'<desc>image {digest_of(run.image)}, stamp {stamp}, line {line}</desc>',
             f'<rect width="{width}" height="{height}" fill="#fff"/>']
    parts += [wire(mesh, ends, totals) for ends in mesh.wires()]
    parts += [drawn for ends, each in crossings(mesh, messages).items() for drawn in arrows(mesh, ends, each, line)]
    parts += [box(mesh, number, node, events.get(number)) for number, node in enumerate(nodes)]
    parts += [*loops(mesh, messages, line), told, '</svg>\n']
    return '\n'.join(parts)
