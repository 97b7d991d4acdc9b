"""A machine's state as a checkpoint has it, and what each event of a log changes of it.

Lines have the keys that saved.py gives them. A step is a text: key~place word;.. changes words of a line, key=line is a new line or another one,
key- is a line that is gone, key+line one more line behind the others, and key< is the first one that is gone. Words of eight hexadecimal digits
stand there as x without leading zeros. In place of a change > says that a context goes on to its nPC. Of a message on a link there are its kind, its
line and its stamp, and its bytes where they aren't zero. Clocks and current slots have no steps: an event's stamp is its node's clock, and an
instruction's slot the current one.
"""
import re

from alewife import LINE_BYTES, SHARED, WORD
from saved import BODY, CLOCK, CODES, COPY_BODY, FROM_CACHE, NEXT_PC, PC, QUEUES, REGISTERS, SLOT, STATUS, TO_CACHE, Y, State

LONG = re.compile('0x[0-9a-f]{8}')
DIGITS = re.compile('0x0*([0-9a-f]+)')
ZERO = ['0x00000000'] * 4
ANSWERS = {'RDATA', 'WDATA', 'BUSY'}
AT_ONCE = 'ba,a '


def spelled(number):
    """A word of eight digits."""
    return f'0x{number % (1 << 32):08x}'


def shortened(word):
    """A word as a step has it."""
    return f'x{int(word, 16):x}' if LONG.fullmatch(word) else word


def line_of(words):
    """A line as a step has it."""
    if words[0] == 'link':
        words = [*words[3:5], words[6], *(words[7:] if words[7:] != ZERO else [])]
    return ' '.join(map(shortened, words))


def lengthened(word):
    """A word of a step as a checkpoint has it."""
    return f'0x{word[1:]:0>8}' if word[0] == 'x' else word


def words_of(key, text):
    """The words of a line that a step has."""
    words = list(map(lengthened, text.split(' ')))
    if key[0] != 'l':
        return words
    from_node, to = key[1:].split('.')
    return ['link', from_node, to, *words[:2], from_node, words[2], *(words[3:] or ZERO)]


def onward(context):
    """PC and nPC where a context goes on."""
    return {PC: context[NEXT_PC], NEXT_PC: spelled(int(context[NEXT_PC], 16) + 4)}


def tick(node, stamp, slot):
    """Gives a node's line the clock of an event, and its slot where it has one."""
    node[CLOCK] = str(stamp)
    node[SLOT] = node[SLOT] if slot is None else str(slot)


def register_at(name):
    """The place of a register in a context's line, by its name."""
    return REGISTERS + 8 * 'goli'.index(name[1]) + int(name[2])


class Machine(State):
    """A state that goes on from event to event."""

    def __init__(self, image, sets, lines):
        super().__init__(image, lines)
        self.sets, self.steps = sets, []

    # ---- steps

    def begun(self):
        """The steps that lead here from no lines."""
        for key in self.keys():
            if key[0] in QUEUES:
                yield from (f'{key}+{line_of(words)}' for words in self.lines[key])
            else:
                yield f'{key}={line_of(self.lines[key])}'

    def change(self, key, new):
        """Changes words of a line, given by their places."""
        words = self.lines[key]
        changed = {at: word for at, word in new.items() if words[at] != word}
        if changed:
            told = ['>'] if key[0] == 'c' and onward(words).items() <= changed.items() else []
            told += [f'{at} {shortened(word)}' for at, word in changed.items() if not told or at not in (PC, NEXT_PC)]
            for at, word in changed.items():
                words[at] = word
            self.steps.append(f'{key}~' + ';'.join(told))

    def put(self, key, words):
        """Puts a line there."""
        self.lines[key] = words
        self.steps.append(f'{key}={line_of(words)}')

    def drop(self, key):
        """Drops a line, where there is one. Its words."""
        if key in self.lines:
            self.steps.append(f'{key}-')
        return self.lines.pop(key, None)

    def push(self, key, words):
        """Puts a line behind others."""
        self.lines.setdefault(key, []).append(words)
        self.steps.append(f'{key}+{line_of(words)}')

    def take(self, key):
        """Takes the first line. Its words."""
        self.steps.append(f'{key}<')
        words = self.lines[key].pop(0)
        if not self.lines[key]:
            del self.lines[key]
        return words

    def step(self, event):
        """Does an event. The steps that it is."""
        self.steps = []
        node = event.number('node')
        left = {'I': self.turn, 'D': self.delivery, 'H': self.handling, 'E': self.eviction}[event.letter](event, node)
        tick(self.lines[f'n{node}'], event.stamp, event.said.get('slot'))
        for kind, line, to in event.sends:
            self.send(node, to, kind, line, event.stamp, left)
        return self.steps

    def send(self, node, to, kind, line, stamp, left):
        """Sends a message. What it carries is the home's line, or the copy that has left the cache."""
        body = self.home(line)[BODY:] if kind in TO_CACHE else left if kind in FROM_CACHE else ZERO
        self.push(f'l{node}.{to}', ['link', str(node), str(to), kind, str(line), str(node), str(stamp), *body])

    # ---- an instruction

    def turn(self, event, node):
        """An instruction or a miss."""
        key = f'c{node * self.image.sizes.contexts + event.number("slot")}'
        if event.said['misses'] is not None:
            return self.miss(event, node, key)
        if event.said['halts'] or event.said['traps'] is not None:
            return self.change(key, {STATUS: 'halted' if event.said['halts'] else f'trapped {event.said["traps"]}'})
        changed = {STATUS: 'ready', **self.on(event, self.lines[key]), **self.beside(event)}
        if event.said['register']:
            changed[register_at(event.said['register'])] = event.said['set']
        if event.said['written'] is not None:
            self.write(event, node)
        return self.change(key, changed)

    def miss(self, event, node, key):
        """A context waits for a line, which it may ask for."""
        line = event.said['misses']
        if event.said['how'] == 'opens':
            self.put(f'p{node}.{line}', ['pending', line, event.said['mode'], event.said['slot']])
        self.change(key, {STATUS: f'wait {line}'})

    def on(self, event, context):
        """PC and nPC after an instruction."""
        beyond = int(context[NEXT_PC], 16)
        if event.said['annuls']:
            return {PC: spelled(beyond + 4), NEXT_PC: spelled(beyond + 8)}
        if event.said['taken'] is None:
            return onward(context)
        if event.said['statement'].startswith(AT_ONCE):
            return {PC: event.said['taken'], NEXT_PC: spelled(event.number('taken') + 4)}
        return {PC: context[NEXT_PC], NEXT_PC: event.said['taken']}

    def beside(self, event):
        """The condition codes and Y, where an instruction changed them."""
        return {at: event.said[name] for at, name in ((CODES, 'codes'), (Y, 'y')) if event.said[name] is not None}

    def write(self, event, node):
        """Bytes are written in a copy."""
        address, count = event.number('written_at'), int(event.said['written_bytes'])
        key, at = f'a{node}.{(address - SHARED) // LINE_BYTES % self.sets}', address % LINE_BYTES
        digits = self.lines[key][COPY_BODY + at // WORD][2:]
        begin = at % WORD * 2
        word = '0x' + digits[:begin] + event.said['written'][10 - 2 * count:] + digits[begin + 2 * count:]
        self.change(key, {COPY_BODY + at // WORD: word})

    # ---- a message

    def delivery(self, event, node):
        """A message that a node takes from a link. The bytes of the copy that leaves its cache, if one does."""
        words = self.take(f'l{event.said["sender"]}.{node}')
        if event.said['copy'] is not None:
            return self.at_cache(event, node, words)
        if event.said['traps'] is None:
            return self.at_home(event, words[-4:])
        line = event.said['line']
        self.enter(line, self.home(line)[:3] + ['progress'] + self.home(line)[4:])
        return self.push(f'q{node}', ['packet', *words[3:]])

    def handling(self, event, node):
        """A packet that the trap handler takes."""
        return self.at_home(event, self.take(f'q{node}')[-4:])

    def enter(self, line, words):
        """Gives a line another entry, which has no line where it is as at the start."""
        key = f'h{line}'
        if words == self.first(int(line)):
            self.drop(key)
        elif key in self.lines:
            self.change(key, dict(enumerate(words)))
        else:
            self.put(key, words)

    def at_home(self, event, body):
        """A message to memory: the entry, and the line's bytes where it brings them."""
        line, kind, before, after = event.said['line'], event.said['kind'], event.said['before'][:2], event.said['after']
        brings = kind in FROM_CACHE and (before in ('RT', 'WT') or kind == 'REPM' and before == 'RW' and after[:2] == 'RO')
        self.enter(line, ['home', line, *after.split(' '), *(body if brings else self.home(line)[BODY:])])

    def at_cache(self, event, node, words):
        """A message to a cache. The bytes of the copy that leaves it."""
        line, kind, first = event.said['line'], event.said['kind'], node * self.image.sizes.contexts
        for slot in map(int, re.findall('[0-9]+', event.said['wakes'])):
            held = event.said['holds'] == str(slot)
            self.change(f'c{first + slot}', {STATUS: f'hold {line}' if held else 'ready'})
        if kind in ANSWERS:
            self.drop(f'p{node}.{line}')
        place = int(line) % self.sets
        key = f'a{node}.{place}'
        if kind in TO_CACHE:
            left = self.lines.get(key)
            self.put(key, ['cache', str(place), line, event.said['copy_after'], *words[-4:]])
            return left and left[COPY_BODY:]
        return self.drop(key)[COPY_BODY:] if event.said['copy'] != event.said['copy_after'] else None

    def eviction(self, event, node):
        """A copy leaves its cache. Its bytes."""
        return self.drop(f'a{node}.{event.said["set"]}')[COPY_BODY:]
