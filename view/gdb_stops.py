"""Where a run stops that goes on from a place, forwards or backwards: breakpoints, watchpoints, steps, prints, traps and the two ends."""
import bisect
from dataclasses import dataclass, field

from alewife import LINE_BYTES, SHARED

TRAP, ABORT, NO_SIGNAL = 5, 6, 0
SIGNALS = {0x01: 11, 0x02: 4, 0x07: 10, 0x09: 11}
WATCHED = {2: ('watch', ('writes',)), 3: ('rwatch', ('reads',)), 4: ('awatch', ('reads', 'writes'))}


@dataclass(frozen=True)
class Going:
    """How a run is to go on: forwards or backwards, which contexts move and may stop it (all where it is None), which stop at their next turn, and up to
    which place some have moved before."""
    forwards: bool = True
    contexts: frozenset = None
    steps: frozenset = frozenset()
    ahead: dict = field(default_factory=dict)

    def moves(self, context, place):
        """Whether a context has its turn at a place in this going."""
        return (self.contexts is None or context in self.contexts) and place >= self.ahead.get(context, 0)


@dataclass(frozen=True)
class Stop:
    """Where and why a run stops: the place, the context or None, the signal, the reason as a packet has it, and the event's place or None."""
    place: int
    context: int = None
    signal: int = TRAP
    reason: str = ''
    event: int = None


@dataclass
class Stops:
    """What stops a run: breakpoints as {PC: kind}, watchpoints as (kind, address, bytes), and whether prints do."""
    run: object
    breakpoints: dict = field(default_factory=dict)
    watchpoints: set = field(default_factory=set)
    prints: bool = True

    def find(self, place, going):
        """The first stop from a place on."""
        found = [stop for stop in self.candidates(place, going) if stop]
        if not found:
            return Stop(self.run.end, reason='replaylog:end;') if going.forwards else Stop(0, reason='replaylog:begin;')
        return min(found, key=lambda stop: stop.event if going.forwards else -stop.event)

    def candidates(self, place, going):
        """The first stop of each kind, or None. Of those at one event the first kind counts."""
        index = self.run.index
        yield self.seen(index.traps, place, going)
        for kind, address, count in sorted(self.watchpoints):
            yield self.watched(place, going, kind, address, count)
        pcs = index.to_pc if going.forwards else index.at_pc
        for pc, kind in sorted(self.breakpoints.items()):
            reason = 'hwbreak:;' if kind == 1 else 'swbreak:;'
            yield self.at(first_in(pcs.get(pc, ()), place, going.forwards, self.resumed(going)), going, reason)
        for context in sorted(going.steps):
            yield self.at(first_in(index.turns[context], place, going.forwards, self.resumed(going)), going, '')
        if self.prints:
            yield self.seen(index.prints, place, going)

    def resumed(self, going):
        """Whether the turn at a place is of a context that may stop the run."""
        return lambda at: going.moves(self.run.owners[at], at)

    def at(self, event, going, reason, signal=TRAP):
        """The stop at an event: forwards behind it, backwards before it."""
        return None if event is None else Stop(event + going.forwards, self.run.owners[event], signal, reason, event)

    def seen(self, events, place, going):
        """The stop at a print or a trap, which has happened both ways: there is nothing to see of it before."""
        event = first_in(events, place if going.forwards else place - 1, going.forwards, self.resumed(going))
        if event is None:
            return None
        tt = self.run.event(event).number('traps')
        return Stop(event + 1, self.run.owners[event], NO_SIGNAL if tt is None else SIGNALS.get(tt, ABORT), '', event)

    def watched(self, place, going, kind, address, count):
        """The first stop of a watchpoint."""
        name, kinds = WATCHED[kind]
        lines = range((address - SHARED) // LINE_BYTES, (address + count - 1 - SHARED) // LINE_BYTES + 1)
        resumed = self.resumed(going)

        def is_seen(access):
            """Whether an access is one that is watched."""
            at, begin, length, what = access
            return what in kinds and begin < address + count and address < begin + length and resumed(at)

        seen = [first_in(self.run.index.accesses.get(line, ()), place, going.forwards, is_seen, key=lambda access: access[0]) for line in lines]
        events = [access[0] for access in seen if access]
        return self.at((min if going.forwards else max)(events), going, f'{name}:{address:x};') if events else None


def first_in(list_of, place, forwards, accepts=lambda _: True, key=None):
    """The first of an ordered list that happens from a place on, or backwards the last one before it, and is accepted; or None."""
    at = bisect.bisect_left(list_of, place, key=key)
    for number in range(at, len(list_of)) if forwards else range(at - 1, -1, -1):
        if accepts(list_of[number]):
            return list_of[number]
    return None
