"""States of a machine, as checkpoints have them, and the lines of a log that follow from the states before and after an event.

Nothing here is taken from the program: docs/FORMATS.md says what a checkpoint and a log have, and the manual what a word of code is.
"""
import struct
from dataclasses import dataclass, field

import codes
from trials import expect

SHARED, LINE, WORDS = 0x40000000, 16, 1 << 32
TO_MEMORY = {'RREQ', 'WREQ', 'REPM', 'UPDATE', 'ACKC'}
BRINGING, REPLIES = {'RDATA', 'WDATA'}, {'RDATA', 'WDATA', 'BUSY'}
STORES, READERS = {0x04, 0x05, 0x06}, {0x00, 0x01, 0x02, 0x09, 0x0A}
BYTES = {0x00: 4, 0x01: 1, 0x02: 2, 0x04: 4, 0x05: 1, 0x06: 2, 0x09: 1, 0x0A: 2, 0x0D: 1, 0x0F: 4}
WRITE_Y, TRAP = 0x30, 0x3A


# ---- a state


@dataclass(frozen=True)
class Context:
    """A context: what it does, PC, nPC, Y, the codes N Z V C, and its registers from register 0 on."""
    does: str
    pc: int
    npc: int
    y: int
    codes: tuple
    registers: tuple

    def line(self, way):
        """The line that it waits for or holds, or None."""
        return int(self.does.split()[1]) if self.does.startswith(way) else None


@dataclass
class Node:
    """A node: its current slot, its contexts, the lines that it asked for as (mode, slot), its copies by set as (line, mode, bytes), the entries of
    home lines that aren't as at the start, and its packets."""
    slot: int
    contexts: list = field(default_factory=list)
    pending: dict = field(default_factory=dict)
    cache: dict = field(default_factory=dict)
    homes: dict = field(default_factory=dict)
    packets: list = field(default_factory=list)


@dataclass(frozen=True)
class Message:
    """A message: its kind, its line, its sender, and the stamp that it was sent at."""
    kind: str
    line: int
    sender: int
    stamp: int


@dataclass
class State:
    """A machine: its nodes, and the messages of each link by (sender, receiver)."""
    nodes: list = field(default_factory=list)
    links: dict = field(default_factory=dict)


def message_of(words):
    """The message of its words."""
    return Message(words[0], int(words[1]), int(words[2]), int(words[3]))


def context_of(words):
    """The context of the words behind its number."""
    length = 1 if words[0] in ('ready', 'halted') else 2
    pc, npc, y, flags, *registers = words[length:]
    return Context(' '.join(words[:length]), int(pc, 16), int(npc, 16), int(y, 16), tuple(map(int, flags)), (0, *(int(word, 16) for word in registers)))


def add_line(state, words):
    """Puts what a line says into a state."""
    node = state.nodes[-1] if state.nodes else None
    if words[0] == 'node':
        state.nodes.append(Node(int(words[5])))
    elif words[0] == 'context':
        node.contexts.append(context_of(words[2:]))
    elif words[0] == 'pending':
        node.pending[int(words[1])] = words[2], int(words[3])
    elif words[0] == 'cache':
        node.cache[int(words[1])] = int(words[2]), words[3], b''.join(int(word, 16).to_bytes(4, 'big') for word in words[4:])
    elif words[0] == 'home':
        node.homes[int(words[1])] = ' '.join(words[2:words.index('acks') + 2])
    elif words[0] == 'packet':
        node.packets.append(message_of(words[1:]))
    else:
        state.links.setdefault((int(words[1]), int(words[2])), []).append(message_of(words[3:]))


def state_of(lines):
    """The state of the lines of a checkpoint."""
    state = State()
    for line in lines:
        add_line(state, line.split(' '))
    return state


# ---- an instruction


def holds(condition, flags):
    """Whether a condition of a branch or a trap holds of the codes N Z V C (manual, B.21 and B.27)."""
    n, z, v, c = flags
    told = (0, z, z | (n ^ v), n ^ v, c | z, c, n, v)[condition & 7]
    return bool(told) != (condition >= 8)


def operand(word, registers):
    """The second operand of an instruction: a register or a number with its sign."""
    if not word >> 13 & 1:
        return registers[word & 31]
    return (word & 0xFFF) - (word & 0x1000)


def address_of(word, registers):
    """The sum of an instruction's operands."""
    return (registers[word >> 14 & 31] + operand(word, registers)) % WORDS


def written_by(word):
    """The register that an instruction writes, or None."""
    op, op3, rd = word >> 30, word >> 19 & 63, word >> 25 & 31
    if op == 1:
        return 15
    if op == 0:
        return rd if word >> 22 & 7 == 4 else None
    return None if op3 in ((WRITE_Y, TRAP) if op == 2 else STORES) else rd


def prints(word, context):
    """Whether an instruction is a trap of number 1 whose condition holds."""
    return word >> 30 == 2 and word >> 19 & 63 == TRAP and holds(word >> 25 & 15, context.codes) and address_of(word, context.registers) & 127 == 1


class Code:
    """An image's code, and the statements at its addresses."""

    def __init__(self, image, statements):
        self.words = [word for word, in struct.iter_unpack('>I', image.code)]
        self.statements, self.always = statements, set(image.always)

    def word(self, address):
        """The word at an address."""
        return self.words[address // 4]

    def statement(self, address):
        """The statement at an address, or '-' where no word stands there."""
        return self.statements[address // 4] if address // 4 < len(self.statements) else '-'


# ---- the line of an event


@dataclass(frozen=True)
class Step:
    """An event by the states before and after it: its stamp, its words behind that, and the machine's code, parameters and states."""
    stamp: int
    words: list
    code: Code
    sets: int
    before: State
    after: State

    def node(self):
        """The number of the node where it happens."""
        return int(self.words[2] if self.words[0] == 'D' else self.words[1])

    def nodes(self):
        """The node before and after it."""
        return self.before.nodes[self.node()], self.after.nodes[self.node()]

    def line(self):
        """Its line in a log."""
        did = {'I': turn, 'D': delivery, 'H': handling, 'E': eviction}[self.words[0]](self)
        return f'{self.stamp} {" ".join(self.words)}{did}{sends(self)}'


def sends(step):
    """What was sent: the messages that have the stamp and the sender of the event."""
    found = ((to, each) for (sender, to), sent in step.after.links.items() for each in sent if sender == step.node() and each.stamp == step.stamp)
    return ''.join(f' sends {each.kind} {each.line} {to}' for to, each in sorted(found, key=lambda pair: pair[0]))


def running(node):
    """The slot that runs: the first from the current one on that may take a turn."""
    count = len(node.contexts)
    slots = ((node.slot + beyond) % count for beyond in range(count))
    return next(slot for slot in slots if node.contexts[slot].does.split()[0] in ('ready', 'hold'))


def turn(step):
    """What an instruction did."""
    before, after = step.nodes()
    slot = running(before)
    old, new = before.contexts[slot], after.contexts[slot]
    held = old.line('hold')
    did = f' slot {slot} pc 0x{old.pc:08x} {step.code.statement(old.pc)}{outcome(step, slot, old, new)}'
    return did + (f' ends-hold {held}' if held is not None else '')


def outcome(step, slot, old, new):
    """What came of a turn, or the miss."""
    if new.does.startswith('wait'):
        return miss(step, slot, step.code.word(old.pc), new.line('wait'))
    if new.does == 'halted':
        return ' halts'
    if new.does.startswith('trapped'):
        return f' traps {new.does.split()[1]}'
    word = step.code.word(old.pc)
    return f' prints 0x{old.registers[8]:08x}' if prints(word, old) else done(step, word, old, new)


def miss(step, slot, word, line):
    """A miss: its line, what for, and whether the slot asks for it or another one has."""
    before, after = step.nodes()
    mode = 'read' if word >> 19 & 63 in READERS else 'write'
    expect(line in before.pending or after.pending[line] == (mode, slot), f'node {step.node()} has asked for line {line} in another way')
    return f' misses {line} {mode} {"waits" if line in before.pending else "opens"}'


def done(step, word, old, new):
    """An instruction that was done: the register, the bytes, and where control went."""
    register, text = written_by(word), ''
    if register:
        text += f' sets %{"goli"[register // 8]}{register % 8} 0x{new.registers[register]:08x}'
    expect(all(old.registers[each] == new.registers[each] for each in range(32) if each != register), 'another register has changed')
    text += beside(word, old, new)
    if word >> 30 == 3:
        text += moved(step, word, old)
    at_once = word >> 29 == 1 and word >> 22 & 7 == 2 and word >> 25 & 15 == 8
    if new.pc == old.npc:
        return text + (f' taken 0x{new.npc:08x}' if new.npc != (old.npc + 4) % WORDS else '')
    return text + (f' taken 0x{new.pc:08x}' if at_once else ' annuls')


def beside(word, old, new):
    """The codes and Y by the instruction's arithmetic, where they aren't those before it."""
    flags, y = (of(word, old.registers.__getitem__, *more) for of, more in ((codes.codes_of, (old.codes[3],)), (codes.y_of, ())))
    before = ''.join(map(str, old.codes))
    flags, y = before if flags is None else flags, old.y if y is None else y
    expect((flags, y) == (''.join(map(str, new.codes)), new.y), f'codes {flags} and y 0x{y:08x} have to be left')
    return (f' codes {flags}' if flags != before else '') + (f' y 0x{y:08x}' if y != old.y else '')


def moved(step, word, old):
    """The bytes that an access read, and those that it wrote."""
    op3, address, text = word >> 19 & 63, address_of(word, old.registers), ''
    for way, node, is_there in zip(('reads', 'writes'), step.nodes(), (op3 not in STORES, op3 not in READERS)):
        line, _, body = node.cache[(address - SHARED) // LINE % step.sets]
        expect(line == (address - SHARED) // LINE, f'node {step.node()} has no copy of the line at 0x{address:08x}')
        value = int.from_bytes(body[address % LINE:address % LINE + BYTES[op3]], 'big')
        text += f' {way} 0x{address:08x} {BYTES[op3]} 0x{value:08x}' if is_there else ''
    return text


def entry(step, node, line):
    """A home line's entry."""
    return node.homes.get(line, f'RO {"trap-always" if line in step.code.always else "normal"} hw - sw - acks 0')


def change(step, line):
    """A home line's entry before and after."""
    before, after = step.nodes()
    return f' before {entry(step, before, line)} after {entry(step, after, line)}'


def delivery(step):
    """What a message did at memory or at a cache."""
    before, after = step.nodes()
    message = step.before.links[int(step.words[1]), step.node()][0]
    about = f' {message.kind} {message.line}'
    if message.kind not in TO_MEMORY:
        return about + at_cache(step, message)
    return about + (' traps' if len(after.packets) > len(before.packets) else change(step, message.line))


def copy(step, node, line):
    """What a node's copy of a line allows."""
    of_line, mode, _ = node.cache.get(line % step.sets, (None, None, None))
    return mode if of_line == line else 'none'


def at_cache(step, message):
    """What a message did at a cache: who wakes, who holds, which copy is replaced, and the copy of its line."""
    (before, after), line, text = step.nodes(), message.line, ''
    if message.kind in REPLIES and line in before.pending:
        text += ''.join(f' wakes {slot}' for slot, each in enumerate(before.contexts) if each.line('wait') == line)
        woken = [slot for slot, each in enumerate(before.contexts) if each.does != after.contexts[slot].does]
        expect(text == ''.join(f' wakes {slot}' for slot in woken), f'node {step.node()}: {woken} wake')
        text += ''.join(f' holds {slot}' for slot, each in enumerate(after.contexts) if slot in woken and each.line('hold') is not None)
    replaced = before.cache.get(line % step.sets)
    if message.kind in BRINGING and replaced and replaced[0] != line:
        text += f' replaces {replaced[0]} {replaced[1]}'
    return text + f' copy {copy(step, before, line)} {copy(step, after, line)}'


def handling(step):
    """What the trap handler did."""
    before, after = step.nodes()
    packet = before.packets[0]
    expect(after.packets == before.packets[1:], f'node {step.node()}: its packets')
    is_spill = packet.kind == 'RREQ' and entry(step, before, packet.line).startswith('RO')
    return f' {packet.kind} {packet.line} {packet.sender}{change(step, packet.line)}{" spill" if is_spill else ""}'


def eviction(step):
    """The copy that left."""
    before, after = step.nodes()
    number = int(step.words[2])
    expect(number not in after.cache, f'node {step.node()}: set {number} has a copy still')
    line, mode, _ = before.cache[number]
    return f' {line} {mode}'
