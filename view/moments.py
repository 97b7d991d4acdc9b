"""The moments of a run: when its events start and finish, in cycles, as `run --cycles S --write moments` and `time --write moments` write them.

    moments = moments_beside(given, head, opened('lock.moments'))     those of a log or of a trace, with what they begin with
    for event, moment in timed(events, moments): ..                   each event with its own
    kept = moments_of(trace, 'lock.moments')                          all those of a trace, for a tool that goes back

Moments name no image. They are refused beside a run that has other sizes, parameters or events, and beside a trace to which the program gives
others by the same costs. Two programs may have the same events and other cycles: of a log, which has no image, that isn't told apart.
"""
import itertools
import re
import sys
from dataclasses import dataclass, replace
from typing import NamedTuple

from frames import ViewError
from given import opened, written

HEAD_LINES = 5
HEAD = re.compile(r'ALEWIFE MOMENTS 1\nmesh (\d+) (\d+) contexts (\d+) lines (\d+)\n'
                  r'params pointers (\d+) sets (\d+) limit (\d+)\ncosts ((?:[a-z]+ \d+ )+seed \d+)\nentries (\d+)\n')
ROW = re.compile(r'(\d+) (\d+) ([IH] \d+|[DE] \d+ \d+)')
EVENTS = {'I': 'I {node}', 'H': 'H {node}', 'D': 'D {sender} {node}', 'E': 'E {node} {set}'}
NONE = 'these are no moments: `alewife run --cycles S --write moments` writes them, and `alewife time --write moments` of a trace'
CUT, OTHER_RUN = 'the moments are cut, or one has no form', 'the moments are those of another run'


class Moment(NamedTuple):
    """The cycles in which an event starts and finishes, and the event as a trace has it, without its stamp."""
    start: int
    finish: int
    event: str


@dataclass(frozen=True)
class Moments:
    """What moments begin with: sizes and parameters of the run, in the order of a log's head, the costs and their seed by name, and how many there
    are; and the moments themselves, one by one, in the order of the journal."""
    sizes: tuple
    costs: dict
    count: int
    rows: object

    def words(self):
        """The costs and their seed as words of a call."""
        return [word for name, cost in self.costs.items() for word in (f'--{name}', str(cost))]


def rows_in(lines, count):
    """The moments of so many lines, one by one. Lines that are missing, have no form or stand behind the last are refused."""
    for _ in range(count):
        row = ROW.fullmatch(next(lines, ''))
        if not row:
            raise ViewError(CUT)
        yield Moment(int(row[1]), int(row[2]), sys.intern(row[3]))
    if next(lines, '') != 'end' or next(lines, None) is not None:
        raise ViewError(CUT)


def moments_in(lines):
    """The moments of a text, from its lines without their ends."""
    lines = iter(lines)
    head = HEAD.fullmatch(''.join(f'{line}\n' for line in itertools.islice(lines, HEAD_LINES)))
    if not head:
        raise ViewError(NONE)
    costs, count = head[8].split(), int(head[9])
    return Moments(tuple(map(int, head.groups()[:7])), dict(zip(costs[::2], map(int, costs[1::2]))), count, rows_in(lines, count))


def rows_of(moments, told):
    """The moments, one by one, where others are the same."""
    for moment, other in itertools.zip_longest(moments.rows, told.rows):
        if moment != other:
            raise ViewError(OTHER_RUN)
        yield moment


def confirmed(moments, trace):
    """The moments, where the program gives them to a trace by the same costs. To a trace without an end it gives none."""
    lines, why = written(trace, 'time', *moments.words(), '--write', 'moments')
    if why.endswith('not finished'):
        raise ViewError(OTHER_RUN)
    if why:
        raise ViewError(f'refused: {why}')
    told = moments_in(lines)
    if (told.sizes, told.count) != (moments.sizes, moments.count):
        raise ViewError(OTHER_RUN)
    return replace(moments, rows=rows_of(moments, told))


def moments_of(trace, path):
    """All moments of a file, which have to be those of a trace, with the program that is asked about it."""
    return list(confirmed(moments_in(opened(path)), trace).rows)


def moments_beside(given, head, lines):
    """The moments of some lines, which have to be those of a log or a trace that is given, with this head. Of a trace without an end they are those
    of a run that goes on from it, and the first ones are looked at."""
    moments = moments_in(lines)
    sizes = head.width, head.height, head.contexts, head.lines, head.pointers, head.sets, head.limit
    is_whole = given.events is None
    if moments.sizes != sizes or (is_whole and moments.count != head.events):
        raise ViewError(OTHER_RUN)
    return confirmed(moments, given.program) if is_whole and given.program else moments


def timed(events, moments):
    """Each event with its moment, one by one. Moments of other events are refused, and so are those that are cut behind the last event."""
    rows = iter(moments.rows)
    for event in events:
        moment = next(rows, None)
        if not moment or moment.event != EVENTS[event.letter].format_map(event.said):
            raise ViewError(OTHER_RUN)
        yield event, moment
    next(rows, None)
