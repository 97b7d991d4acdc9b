"""When messages of a timed run hold the port of their node, and when they arrive: by its costs, from its events and their moments in the order of the journal.

docs/DEFINITIONS.md says what a port is (`sent_one`, `length_of` of Times, of alw_times).
"""
from collections import defaultdict, deque
from dataclasses import dataclass

from frames import ViewError
from saved import FROM_CACHE, TO_CACHE

WITH_LINE = TO_CACHE | FROM_CACHE


@dataclass(frozen=True)
class Message:
    """A message, or a packet: its number, its kind, its line and its receiver; from when to when it holds its sender's port, the same where it doesn't; when
    it arrives, and of a packet when it comes."""
    number: int
    kind: str
    line: int
    to: int
    held: int
    freed: int
    arrives: int

    def holds_port(self):
        """Whether it holds the port at all."""
        return self.held < self.freed


class Network:
    """The ports, and what is on each link and waits at each node for the handler, in order."""

    def __init__(self, head, costs):
        self.width, self.costs, self.count = head.width, costs, 0
        self.ports, self.links, self.packets = [0] * head.nodes(), defaultdict(deque), defaultdict(deque)

    def number(self):
        """The number of one message more."""
        self.count += 1
        return self.count

    def hops(self, one, other):
        """How many wires the way between two nodes has."""
        return abs(one % self.width - other % self.width) + abs(one // self.width - other // self.width)

    def length(self, kind):
        """How long a message holds the port."""
        return self.costs['send'] + self.costs['data'] * (kind in WITH_LINE)

    def taken(self, event, moment):
        """The message that a delivery takes, or the packet that the handler takes; None of another event."""
        if event.letter not in 'DH':
            return None
        node = event.number('node')
        queue = self.packets[node] if event.letter == 'H' else self.links[event.number('sender'), node]
        about = event.said['kind'], event.number('line')
        if not queue or (queue[0].kind, queue[0].line) != about or queue[0].arrives > begin_of(event, moment, self.costs):
            raise ViewError(f"the moments aren't those of their costs: at stamp {event.stamp} node {node} takes what hasn't come")
        return queue.popleft()

    def left(self, event, moment):
        """The messages that an event sends, in order: they leave as it finishes, and those of the handler as it acts."""
        node, leaves = event.number('node'), moment.start if event.letter == 'H' else moment.finish
        for kind, line, to in event.sends:
            if to == node:
                message = Message(self.number(), kind, line, to, leaves, leaves, leaves)
            else:
                held = max(self.ports[node], leaves)
                self.ports[node] = held + self.length(kind)
                message = Message(self.number(), kind, line, to, held, self.ports[node], self.ports[node] + self.costs['hop'] * self.hops(node, to))
            self.links[node, to].append(message)
            yield message

    def trapped(self, event, moment):
        """The packet that a delivery leaves which traps; None of another event."""
        if event.letter != 'D' or not event.said['traps']:
            return None
        node = event.number('node')
        packet = Message(self.number(), event.said['kind'], event.number('line'), node, moment.finish, moment.finish, moment.finish)
        self.packets[node].append(packet)
        return packet


def begin_of(event, moment, costs):
    """When an event begins: the handler works for as long as a trap takes before it acts, and others act as they begin."""
    return moment.start - costs['trap'] * (event.letter == 'H')
