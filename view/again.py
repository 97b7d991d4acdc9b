"""A run that comes again: its log, its places, and the state at each. A place is a number of events, which have happened in the order of stamps.

A state is gone on to from a checkpoint before it, which the program saves at each multiple of SPACING where it is wanted.
"""
import bisect
import re
import threading
from collections import defaultdict
from dataclasses import dataclass, field
from functools import cached_property, lru_cache

import logs
import misses
from alewife import LINE_BYTES, SHARED, image_of, run_of
from frames import Program, ViewError
from machine import Machine
from saved import State

SPACING = 2048
KEPT_STATES, KEPT_CHECKPOINTS, KEPT_LINES = 64, 64, 4096
NOTED, TOLD_EVERY = 4096, 0.5
TURN = re.compile(r'\d+ I (\d+) slot (\d) pc (0x[0-9a-f]{8}) ')
ACCESS = re.compile(r' (reads|writes) (0x[0-9a-f]{8}) ([124]) ')


# ---- what happens where


@dataclass
class Index:
    """Where things happen, each a list of the places before the events, in order: turns by context, by PC and by the PC that they lead to, accesses
    by line as (place, address, bytes, kind), prints, and traps."""
    turns: dict = field(default_factory=lambda: defaultdict(list))
    at_pc: dict = field(default_factory=lambda: defaultdict(list))
    to_pc: dict = field(default_factory=lambda: defaultdict(list))
    accesses: dict = field(default_factory=lambda: defaultdict(list))
    prints: list = field(default_factory=list)
    traps: list = field(default_factory=list)

    def add(self, place, context, pc, line):
        """Adds a turn of a context, of the line of a log."""
        self.turns[context].append(place)
        self.at_pc[pc].append(place)
        for kind, address, count in ACCESS.findall(line):
            self.accesses[(int(address, 16) - SHARED) // LINE_BYTES].append((place, int(address, 16), int(count), kind))
        if ' prints ' in line:
            self.prints.append(place)
        if ' traps ' in line:
            self.traps.append(place)


@dataclass
class Log:
    """What the log of a run says: its head, the lines of its events in the order of stamps, from which places of the trace they are, their stamps, which
    context each turn is of, what happens where, and how the run ended."""
    head: logs.Head
    order: list
    lines: list
    stamps: list
    owners: dict
    index: Index
    ended: str

    def fill(self, standing, note):
        """Fills the index: a turn leads to the PC of the next instruction of its context, or to that at which the context stands at the end."""
        last = {}
        for place, line in enumerate(self.lines):
            if place % NOTED == 0:
                note(place, len(self.lines))
            match = TURN.match(line)
            if not match:
                continue
            context, pc = int(match[1]) * self.head.contexts + int(match[2]), int(match[3], 16)
            self.owners[place] = context
            if context in last:
                self.index.to_pc[pc].append(last.pop(context))
            if ' misses ' not in line:
                self.index.add(place, context, pc, line)
                last[context] = place
            if ' halts' in line or ' traps ' in line:
                del last[context]
        for context, place in last.items():
            self.index.to_pc[standing[context]].append(place)
        for places in self.index.to_pc.values():
            places.sort()


def log_of(program, note):
    """The log of a run. How many of how many events are read is noted on the way."""
    head, lines, standing, ended = read_log(program)
    order = sorted(range(len(lines)), key=lambda at: stamp_of(lines[at]))
    log = Log(head, order, [lines[at] for at in order], [], {}, Index(), ended)
    log.stamps = [stamp_of(line) for line in log.lines]
    log.fill(standing, note)
    return log


def of_log(name):
    """What a run has of its log, for which it waits."""
    return property(lambda run: getattr(run.log(), name))


class Interrupted(Exception):
    """That nobody waits for the log any more."""


class Again:
    """A run, its places from 0 to `end`, and its states and checkpoints, which are made where they are asked for and kept for a while. The log is read by a
    thread of its own: what is of the log waits for that, and while it waits, it tells how far the thread is. It may have the moments of its entries."""
    head, order, lines, stamps, owners, index, ended = map(of_log, ('head', 'order', 'lines', 'stamps', 'owners', 'index', 'ended'))
    end = property(lambda run: len(run.lines))

    def __init__(self, binary, trace, tell=lambda done, count: None):
        self.program, self.tell, self.is_interrupted = Program(binary, trace), tell, lambda: False
        if b'\nentries ' not in trace:
            self.program.save()
        self.front = trace[:trace.find(b'\nentries ') + 1]
        self.checkpoint = lru_cache(KEPT_CHECKPOINTS)(lambda place: self.saved(place)[1])
        self.state, self.bytes_of = lru_cache(KEPT_STATES)(self.reached), lru_cache(KEPT_LINES)(self.line_bytes)
        start = run_of(self.saved(0)[0])
        self.image, self.sets = image_of(start.image), start.params['sets']
        self.story, self.reasons, self.moments = None, [], None
        self.known, self.fault, self.noted = None, None, (0, trace.count(b'\n', len(self.front)) - 2)
        self.reading = threading.Thread(target=self.read, daemon=True)
        self.reading.start()

    def note(self, done, count):
        """Notes how many events are read, and how many there are."""
        self.noted = done, count

    def read(self):
        """Reads the log, or keeps why there is none."""
        try:
            self.known = log_of(self.program, self.note)
        except Exception as fault:
            self.fault = fault

    def log(self):
        """The log, for which it waits."""
        while self.reading.is_alive():
            self.reading.join(TOLD_EVERY)
            is_interrupted = self.reading.is_alive() and self.is_interrupted()
            self.tell(*(self.noted if self.reading.is_alive() and not is_interrupted else (None, None)))
            if is_interrupted:
                raise Interrupted
        if self.fault:
            raise self.fault
        return self.known

    def event(self, place):
        """The event that is next at a place."""
        return logs.event_of(self.lines[place])

    def stamp(self, place):
        """The stamp of the last event before a place."""
        return self.stamps[place - 1] if place else 0

    def place_of(self, stamp):
        """The place behind all events of stamps up to one."""
        return bisect.bisect_right(self.stamps, stamp)

    def moment(self, place):
        """When the event that is next at a place starts and finishes."""
        return self.moments[self.order[place]]

    def place_from(self, cycle):
        """The place before the first event that starts at a cycle or later: of events of one start that which the journal has first."""
        starts = [(moment.start, at) for at, moment in enumerate(self.moments)]
        later = [start for start in starts if start[0] >= cycle]
        if not later:
            raise ViewError(f'no event starts at cycle {cycle} or later{f": the last start is at {max(starts)[0]}" if starts else ""}')
        return self.order.index(min(later)[1])

    def told_place(self, place):
        """A place in words: a stamp, and where only some of its events have happened, how many. At the start nobody waits for the log."""
        if place == 0:
            return 'stamp 0'
        stamp = self.stamp(place)
        first, behind = bisect.bisect_left(self.stamps, stamp), self.place_of(stamp)
        return f'stamp {stamp}' + (f', {place - first} of its {behind - first} events' if place < behind else '')

    @cached_property
    def entries(self):
        """The entries of the trace, in its order."""
        return self.program.trace[len(self.front):].split(b'\n')[1:-2]

    def saved(self, place):
        """What the program saves at a place: the lines of the trace up to there, and those of the state."""
        entries = [self.entries[at] for at in sorted(self.log().order[:place])] if place else []
        text = b'\n'.join([self.front + b'entries %d' % place, *entries, b'end', b''])
        return Program(self.program.binary, text).save()

    def reached(self, place):
        """The state at a place: that of the checkpoint before it, and the events since."""
        begun = place - place % SPACING
        state = Machine(self.image, self.sets, self.checkpoint(begun))
        for at in range(begun, place):
            state.step(self.event(at))
        return state

    def reason(self, place):
        """Why the miss at a place missed, which the events up to there say: they are taken once."""
        self.story = self.story or misses.Story(self.head)
        for at in range(len(self.reasons), place + 1):
            self.reasons.append(self.story.take(self.event(at)))
        return self.reasons[place]

    def line_of(self, address):
        """The number of the line at an address of shared data, or None."""
        sizes = self.image.sizes
        line = (address - SHARED) // LINE_BYTES
        return line if 0 <= line < sizes.width * sizes.height * sizes.lines else None

    def home_of(self, line):
        """The home of a line."""
        return line // self.image.sizes.lines

    def line_bytes(self, place, line):
        """The current bytes of a line at a place."""
        return bytes.fromhex(''.join(word[2:] for word in self.state(place).value(line)))

    def byte(self, place, address):
        """The byte at an address, of code or of shared data, or None."""
        if address < len(self.image.code):
            return self.image.code[address]
        line = self.line_of(address)
        if line is None:
            return None
        return self.bytes_of(place, line)[address % LINE_BYTES]


def stamp_of(line):
    """The stamp of a line of a log."""
    return int(line.partition(' ')[0])


def read_log(program):
    """The log of a trace: its head, the lines of its events, where each context stands at the end, and how the run ended, or nothing: a run
    without an end is gone on with, and what it does then is left out."""
    called, count = program.call('replay', '--write', 'log'), None
    if called[2].endswith('not finished'):
        trace, state = program.save()
        text = '\n'.join(['ALEWIFE SAVE 1', *trace, f'state {len(state)}', *state, 'end', ''])
        called = Program(program.binary, text.encode()).call('resume', '--write', 'log')
        run = run_of(trace)
        count = sum(map(len, run.events.values()))
        standing = [context.pc for context in State(image_of(run.image), state).contexts()]
    status, text, why = called
    if status == 2:
        raise ViewError(f'{program.binary} writes no logs ({why}): name another program')
    if why:
        raise ViewError(f'refused: {why}')
    lines = text.splitlines()
    head = logs.head_of(lines[:logs.HEAD_LINES])
    events = lines[logs.HEAD_LINES:logs.HEAD_LINES + head.events]
    if count is not None:
        return head, events[:count], standing, ''
    return head, events, [logs.context_of(line).pc for line in lines[logs.HEAD_LINES + head.events + 1:-2]], lines[-2].removeprefix('ended ')
