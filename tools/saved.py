"""The state of a machine, read from the lines that a checkpoint has of it.

A line has a key that says what it is about: n3 is node 3, c5 context 5, p3.7 what node 3 asks for line 7, a3.1 the copy in set 1 of node 3,
h7 the entry of line 7, q3 the packets of node 3, and l0.3 the messages from node 0 to node 3. Behind q and l stand several lines, in order.
"""
import re
from dataclasses import dataclass

from alewife import LINE_BYTES

WORDS = re.compile(r'(?:hold|wait|trapped) \S+|\S+')
KEYS = {'node': 'n{1}', 'context': 'c{1}', 'pending': 'p{node}.{1}', 'cache': 'a{node}.{1}', 'home': 'h{1}', 'packet': 'q{node}', 'link': 'l{1}.{2}'}
RANKS = 'ncpahql'
QUEUES = 'ql'
CLOCK, SLOT = 3, 5
STATUS, PC, NEXT_PC, Y, CODES, REGISTERS = 2, 3, 4, 5, 6, 6
STATE, BODY = 2, 10
COPY_BODY = 4
TO_CACHE = {'RDATA', 'WDATA'}
FROM_CACHE = {'REPM', 'UPDATE'}
CARRIERS = FROM_CACHE | {'WDATA'}


@dataclass(frozen=True)
class Context:
    """A context: its number, its status, its PC and nPC, Y and condition codes, and its registers from register 0 on."""
    number: int
    status: str
    pc: int
    npc: int
    y: int
    codes: str
    registers: tuple


@dataclass(frozen=True)
class Copy:
    """A copy in a cache: its node, its line, its mode and its words."""
    node: int
    line: int
    mode: str
    words: tuple


@dataclass(frozen=True)
class Message:
    """A message: where it is ('link', or 'packet' where it waits for the handler of its home), whom it goes to, and its kind, line and sender."""
    where: str
    receiver: int
    kind: str
    line: int
    sender: int
    stamp: int
    words: tuple


def numbers_of(key):
    """The numbers of a key."""
    return tuple(map(int, key[1:].split('.')))


def message_of(key, words):
    """The message that a line of a queue spells."""
    kind, line, sender, stamp, *body = words[3 if words[0] == 'link' else 1:]
    return Message(words[0], numbers_of(key)[-1], kind, int(line), int(sender), int(stamp), tuple(body))


def in_order(keys, contexts, per_node):
    """Keys in a checkpoint's order, of a machine with so many contexts and home lines a node."""
    def place(key):
        """Where a key's lines stand."""
        numbers = numbers_of(key)
        if key[0] == 'l':
            return 1, *numbers
        return 0, numbers[0] // {'c': contexts, 'h': per_node}.get(key[0], 1), RANKS.index(key[0]), *numbers
    return sorted(keys, key=place)


class State:
    """A state of the machine of an image, from a checkpoint's lines on: the words of each line by its key, and of a queue those of all its lines."""

    def __init__(self, image, lines):
        self.image, self.lines, self.always = image, {}, set(image.always)
        node = None
        for words in map(WORDS.findall, lines):
            node = words[1] if words[0] == 'node' else node
            key = KEYS[words[0]].format(*words, node=node)
            if key[0] in QUEUES:
                self.lines.setdefault(key, []).append(words)
            else:
                self.lines[key] = words

    # ---- the text

    def keys(self):
        """The keys in a checkpoint's order."""
        return in_order(self.lines, self.image.sizes.contexts, self.image.sizes.lines)

    def text(self):
        """The lines as a checkpoint has them."""
        return [' '.join(words) for key in self.keys() for words in (self.lines[key] if key[0] in QUEUES else [self.lines[key]])]

    def of_kind(self, letter, accepts=lambda words: True):
        """The keys that begin with a letter and whose words are accepted, in a checkpoint's order."""
        return sorted((key for key, words in self.lines.items() if key[0] == letter and accepts(words)), key=numbers_of)

    # ---- contexts

    def context(self, number):
        """A context."""
        words = self.lines[f'c{number}']
        pc, npc, y = (int(words[at], 16) for at in (PC, NEXT_PC, Y))
        return Context(number, words[STATUS], pc, npc, y, words[CODES], (0, *(int(word, 16) for word in words[REGISTERS + 1:])))

    def contexts(self):
        """All contexts."""
        return [self.context(*numbers_of(key)) for key in self.of_kind('c')]

    def next_of(self, node):
        """The context that runs next on a node."""
        return self.context(node * self.image.sizes.contexts + int(self.lines[f'n{node}'][SLOT]))

    def waiting_for(self, line):
        """The contexts that wait for a line."""
        return [self.context(*numbers_of(key)) for key in self.of_kind('c', lambda words: words[STATUS] == f'wait {line}')]

    # ---- lines of shared data

    def copy(self, node, place):
        """The copy in a set of a node."""
        words = self.lines[f'a{node}.{place}']
        return Copy(node, int(words[2]), words[3], tuple(words[COPY_BODY:]))

    def copies(self, line):
        """The copies of a line."""
        return [self.copy(*numbers_of(key)) for key in self.of_kind('a', lambda words: words[2] == str(line))]

    def asked(self, line):
        """Which nodes ask for a line, and how, as (node, mode)."""
        return [(numbers_of(key)[0], self.lines[key][2]) for key in self.of_kind('p', lambda words: words[1] == str(line))]

    def home(self, line):
        """The words of a line's entry. A checkpoint has none of one that is as at the start."""
        return self.lines.get(f'h{line}') or self.first(int(line))

    def first(self, line):
        """The words of a line's entry at the start."""
        body = self.image.data.get(line, bytes(LINE_BYTES)).hex()
        meta = 'trap-always' if line in self.always else 'normal'
        return ['home', str(line), 'RO', meta, 'hw', '-', 'sw', '-', 'acks', '0', *(f'0x{body[at:at + 8]}' for at in range(0, 2 * LINE_BYTES, 8))]

    def entry(self, line):
        """A line's entry, as a text without its bytes."""
        return ' '.join(self.home(line)[STATE:BODY])

    def value(self, line):
        """The current words of a line: those of its one carrier, or else the home's."""
        carried = [copy.words for copy in self.copies(line) if copy.mode == 'write']
        carried += [message.words for message in self.messages() if message.line == line and message.kind in CARRIERS]
        return carried[0] if len(carried) == 1 else tuple(self.home(line)[BODY:])

    # ---- messages

    def queue(self, key):
        """The messages of a queue, in order."""
        return [message_of(key, words) for words in self.lines.get(key, ())]

    def packets(self):
        """The packets of all nodes, which wait for their trap handlers."""
        return [packet for key in self.of_kind('q') for packet in self.queue(key)]

    def on_links(self):
        """The messages on their way."""
        return [message for key in self.of_kind('l') for message in self.queue(key)]

    def messages(self):
        """All messages, the packets first."""
        return self.packets() + self.on_links()
