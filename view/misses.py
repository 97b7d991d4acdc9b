"""Why a copy isn't there where a turn misses: from the events of a log, taken one by one."""
import re
from collections import Counter
from dataclasses import dataclass

from alewife import WORD

REGISTERS = [f'%{bank}{number}' for bank in 'goli' for number in range(8)]
OWN_NUMBER, ALL_NUMBER = 8, 9
ADDRESS = re.compile(r'\[(%\w+)(?:\+(%\w+)|([+-]\d+))?\]')
KINDS = ('first', 'other-word', 'same-word', 'read-only', 'evicted', 'replaced', 'BUSY', 'waits')


def registers_at_start(context, contexts):
    """The registers with which a context begins."""
    registers = [0] * len(REGISTERS)
    registers[OWN_NUMBER], registers[ALL_NUMBER] = context, contexts
    return registers


def address_in(statement, registers):
    """The address that a statement loads or stores, or None of another one."""
    match = ADDRESS.search(statement)
    if not match:
        return None
    beyond = registers[REGISTERS.index(match[2])] if match[2] else int(match[3] or 0)
    return (registers[REGISTERS.index(match[1])] + beyond) % (1 << 32)


@dataclass
class Asked:
    """What a node asked for of a line: the context, what for, the address, the stamp, and the stamp of its turn, or 0 where it hasn't had one."""
    node: int
    context: int
    mode: str
    address: int
    stamp: int
    done: int = 0


class Story:
    """What the events so far say: the registers of contexts; of nodes and lines which copies there are, what was asked for last, what a slot
    that holds a line asked for, for what an INV is on its way, how a copy went last, and when BUSY came; and how many misses each line has of each kind."""

    def __init__(self, head):
        self.head, self.registers, self.counts = head, {}, Counter()
        self.copies, self.asked, self.holding, self.taking, self.gone, self.busy = {}, {}, {}, {}, {}, {}

    def context(self, event):
        """The number of the context of a turn."""
        return event.number('node') * self.head.contexts + event.number('slot')

    def values(self, context):
        """The registers of a context."""
        if context not in self.registers:
            self.registers[context] = registers_at_start(context, self.head.nodes() * self.head.contexts)
        return self.registers[context]

    def reached(self, event):
        """The address of a turn's access, which its statement and the registers say; None of a turn without one."""
        return address_in(event.said['statement'], self.values(self.context(event)))

    def take(self, event):
        """Takes an event. Of a miss the answer is why, and of INV what for, as a text."""
        if event.letter == 'I':
            return self.turn(event)
        key = event.number('node'), event.number('line')
        if event.letter == 'E':
            self.copies.pop(key, None)
            self.gone[key] = 'evicted', f'evicted at {event.stamp}'
        elif event.said.get('copy'):
            return self.at_cache(event, key)
        for kind, line, to in event.sends:
            if kind == 'INV':
                self.taking[to, line] = self.asked[event.number('sender'), line]
        return ''

    def turn(self, event):
        """Takes a turn or a miss."""
        said, node, reason = event.said, event.number('node'), ''
        if said['misses']:
            key = node, event.number('misses')
            kind, reason = self.missed(event, key)
            self.counts[key[1], kind] += 1
            if said['how'] == 'opens':
                self.asked[key] = Asked(node, self.context(event), said['mode'], self.reached(event), event.stamp)
        if said['ends']:
            self.holding[node, said['slot']].done = event.stamp
        if said['register']:
            self.values(self.context(event))[REGISTERS.index(said['register'])] = event.number('set')
        return reason

    def missed(self, event, key):
        """Of which kind a miss is, and why the copy isn't there."""
        if event.said['how'] == 'waits':
            return 'waits', f'context {self.asked[key].context} asked for it at {self.asked[key].stamp}'
        if key in self.busy:
            return 'BUSY', f'asks again after BUSY at {self.busy.pop(key)}'
        if key in self.copies:
            return 'read-only', 'its copy is to read only'
        kind, told = self.gone.get(key, ('first', 'first use'))
        if kind != 'INV':
            return kind, told
        stamp, asked = told
        is_same = asked.address // WORD == self.reached(event) // WORD
        when = f'at {asked.done}' if asked.done else f'asked for at {asked.stamp}'
        what = f"{asked.mode} of {'the same' if is_same else 'another'} word, 0x{asked.address:08x}, {when}"
        return 'same-word' if is_same else 'other-word', f"taken by INV at {stamp} for node {asked.node}'s {what}"

    def at_cache(self, event, key):
        """Takes a message to a cache."""
        said, told = event.said, ''
        if said['kind'] == 'INV':
            asked = self.taking.pop(key)
            told = f"for node {asked.node}'s {asked.mode} of 0x{asked.address:08x}"
            if said['copy'] != 'none':
                self.gone[key] = 'INV', (event.stamp, asked)
        if said['kind'] == 'BUSY':
            self.busy[key] = event.stamp
        if said['holds']:
            self.holding[key[0], said['holds']] = self.asked[key]
        if said['replaced']:
            left = key[0], event.number('replaced')
            self.copies.pop(left, None)
            self.gone[left] = 'replaced', f'replaced at {event.stamp} by line {key[1]}'
        self.copies.pop(key, None)
        if said['copy_after'] != 'none':
            self.copies[key] = said['copy_after']
        return told
