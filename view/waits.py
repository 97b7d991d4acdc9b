"""Where the cycles of a timed run went: by place of the code, by line of memory, and by variable.

An access is what `accesses` of ALEWIFE CYCLES counts (docs/FORMATS.md): of an instruction that missed, from the start of its first miss to the start of
its turn. One under way at the end is told nowhere.
"""
from collections import defaultdict
from dataclasses import dataclass, field

import cross
from alewife import LINE_BYTES, SHARED


@dataclass
class Total:
    """How many accesses there were, the sum of their cycles, and the most that one took."""
    count: int = 0
    sum: int = 0
    most: int = 0

    def add(self, time):
        """One more."""
        self.count, self.sum, self.most = self.count + 1, self.sum + time, max(self.most, time)

    def row(self):
        """What a table has of it."""
        return {'waited': self.sum, 'accesses': self.count, 'mean': round(self.sum / self.count, 1), 'most': self.most}


@dataclass
class Code:
    """Of a place of the code: its turns and its misses, the cycles of both from start to finish, and its accesses."""
    turns: int = 0
    cycles: int = 0
    misses: int = 0
    missing: int = 0
    accesses: Total = field(default_factory=Total)

    def row(self):
        """What a table has of it."""
        return {'cycles': self.cycles, 'turns': self.turns, 'in misses': self.missing, 'misses': self.misses, 'waited': self.accesses.sum,
                'accesses': self.accesses.count}


class Waits:
    """What a run's events so far took: the cycles of the run, all accesses, and those by place of the code, by line, and by variable; and its turns,
    all of them and those at idle addresses."""

    def __init__(self, head, places, idle=frozenset()):
        self.contexts, self.places, self.cycles, self.accesses, self.firsts = head.contexts, places, 0, Total(), {}
        self.idle, self.all, self.idling = idle, Code(), Code()
        self.code, self.lines, self.variables = defaultdict(Code), defaultdict(Total), defaultdict(Total)

    def place(self, event):
        """The line of the source of an instruction, or else its address and its statement."""
        pc = event.number('pc')
        place = self.places.place(pc).strip()
        return cross.short_place(place) if place else f'{pc:08x} {event.said["statement"]}'

    def variable(self, address):
        """The variable, or the stack, in which an address lies."""
        return self.places.name(address).strip(' ()').partition('+')[0] or 'no variable'

    def take(self, event, moment):
        """Takes an event with its moment."""
        self.cycles = max(self.cycles, moment.finish)
        if event.letter != 'I':
            return
        code, context = self.code[self.place(event)], event.number('node') * self.contexts + event.number('slot')
        if event.said['misses']:
            code.misses, code.missing = code.misses + 1, code.missing + moment.finish - moment.start
            self.firsts.setdefault(context, moment.start)
            return
        for each in (code, self.all, *([self.idling] if event.number('pc') in self.idle else [])):
            each.turns, each.cycles = each.turns + 1, each.cycles + moment.finish - moment.start
        if context in self.firsts:
            address = event.number('read_at') or event.number('written_at')
            time = moment.start - self.firsts.pop(context)
            for total in (self.accesses, code.accesses, self.lines[(address - SHARED) // LINE_BYTES], self.variables[self.variable(address)]):
                total.add(time)
