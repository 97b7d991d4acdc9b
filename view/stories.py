"""What turns do that lead to an end, told in the program's words: those on words that several contexts use, and the others by count."""
import struct
from collections import Counter, namedtuple
from dataclasses import dataclass, field

import cross
import expressions
import logs
import misses
import outcomes
import traps
from alewife import LINE_BYTES, SHARED, WORD, called
from frames import ViewError

DIGITS = 1 << 16
NO_PROMISE = 'the search promises that these turns lead there, and not that no fewer do'
Access = namedtuple('Access', 'address size value')
Line = namedtuple('Line', 'number context place text')


# ---- memory


def words_at_start(image):
    """The words of shared data that aren't 0 at the start, by address."""
    words = {SHARED + LINE_BYTES * line + WORD * at: word for line, data in image.data.items() for at, word in enumerate(struct.unpack('>4I', data))}
    return {address: word for address, word in words.items() if word}


class Memory:
    """Shared data, by the words that aren't 0."""

    def __init__(self, words):
        self.bytes = {address + at: byte for address, word in dict(words).items() for at, byte in enumerate(word.to_bytes(WORD, 'big'))}

    def read(self, address, size):
        """The value of so many bytes."""
        return int.from_bytes(bytes(self.bytes.get(at, 0) for at in range(address, address + size)), 'big')

    def write(self, access):
        """Takes a store."""
        self.bytes.update(enumerate(access.value.to_bytes(access.size, 'big'), access.address))


# ---- turns


def turns_of(binary, image, runs):
    """What each of the turns does, as events of which the stamp is the number."""
    lines = called(binary, ['audit', '--write', 'log'], outcomes.claim(image, runs, (), ()).encode()).out.decode().splitlines()[:-1]
    if len(lines) != outcomes.count_of(runs):
        raise ViewError(f'audit tells {len(lines)} of {outcomes.count_of(runs)} turns')
    return [logs.claimed_of(line) for line in lines]


def access_of(turn, way):
    """What a turn reads or writes, or None."""
    if turn.said[way] is None:
        return None
    return Access(turn.number(f'{way}_at'), turn.number(f'{way}_bytes'), turn.number(way))


def accesses_of(turn):
    """What a turn reads and writes."""
    return [access for access in (access_of(turn, 'read'), access_of(turn, 'written')) if access]


def shared_by(turns):
    """The addresses of the words that several contexts use in turns."""
    users = {}
    for turn in turns:
        for access in accesses_of(turn):
            users.setdefault(access.address // WORD * WORD, set()).add(turn.number('context'))
    return {address for address, contexts in users.items() if len(contexts) > 1}


def registers_before(turns, contexts):
    """The registers of the last turn's context before that turn."""
    context = turns[-1].number('context')
    registers = misses.registers_at_start(context, contexts)
    for turn in turns[:-1]:
        if turn.number('context') == context and turn.said['register']:
            registers[misses.REGISTERS.index(turn.said['register'])] = turn.number('set')
    return registers


def told_access(turns, contexts):
    """The address of the load or the store with which turns end in a trap, as a text behind a colon, or nothing."""
    last = turns[-1]
    address = misses.address_in(last.said['statement'], registers_before(turns, contexts))
    return traps.told_access(last.number('traps'), last.said['statement'], address)


# ---- a turn in words


@dataclass
class Teller:
    """Tells turns: the names of shared data, the code with its places, and an expression that is never to hold, as its text and its tree."""
    code: object
    variables: object = None
    never: tuple = None
    placed: dict = field(default_factory=dict)

    def know(self, turns):
        """Asks for the places of turns, all at once."""
        for pc, (_, place) in self.code.shown(sorted({turn.number('pc') for turn in turns} - set(self.placed))).items():
            self.placed[pc] = cross.short_place(place.removesuffix(self.code.asserted(pc)))

    def place(self, turn):
        """The place of a turn in the source, short."""
        return self.placed.get(turn.number('pc'), turn.said['pc'])

    def named(self, address):
        """What lies at an address in brackets, or nothing."""
        own = self.variables.name(address) if self.variables else ''
        return f' ({own})' if own else self.code.name(address)

    def name(self, address):
        """What lies at an address: its name, or else the address."""
        own = self.variables.name(address) if self.variables else ''
        return own or f'0x{address:08x}{self.code.name(address)}'

    def value(self, address, value):
        """A value of what lies at an address."""
        part = self.variables.at(address) if self.variables else None
        return self.variables.shown(part, value) if part else str(value) if value < DIGITS else f'0x{value:08x}'

    def deed(self, turn, memory):
        """What a turn does, by the memory before it."""
        read, written = access_of(turn, 'read'), access_of(turn, 'written')
        if written:
            before = memory.read(written.address, written.size)
            yield (f'{self.name(written.address)} = {self.value(written.address, written.value)} (was {self.value(written.address, before)})'
                   f'{", in one turn" if read else ""}')
        elif read:
            yield f'reads {self.name(read.address)} = {self.value(read.address, read.value)}'
        if turn.said['prints']:
            yield f'prints {turn.said["prints"]}'
        if turn.said['traps']:
            asserted = self.code.asserted(turn.number('pc')).removeprefix(': ')
            yield f'{asserted} fails' if asserted else f'traps with tt {turn.said["traps"]} in {turn.said["statement"]}'

    def holds(self, memory):
        """Whether what is never to be is so."""
        return bool(self.never and expressions.value_of(self.never[1], self.variables, memory))


# ---- the story


def steps_of(teller, turns, shared, memory):
    """Each turn as a line, or as None where it is only counted, and what else is to be said behind it. The memory is taken along."""
    held = teller.holds(memory)
    for turn in turns:
        accesses, text = accesses_of(turn), '; '.join(teller.deed(turn, memory))
        if written := access_of(turn, 'written'):
            memory.write(written)
        holds = teller.holds(memory) if written else held
        is_told = turn.said['prints'] or turn.said['traps'] or holds != held or any(access.address // WORD * WORD in shared for access in accesses)
        said = f'{teller.never[0]}, from here on' if holds and not held else f'no more: {teller.never[0]}' if held and not holds else ''
        yield turn, Line(turn.stamp, turn.number('context'), teller.place(turn), text) if is_told else None, said
        held = holds


def told_rest(rest):
    """How many turns of each context aren't told."""
    return ', '.join(f'{count} turn{"s" * (count != 1)} of context {context}' for context, count in sorted(rest.items()))


def told_steps(steps):
    """The lines of steps, places below each other."""
    steps = list(steps)
    width, rest = max((len(line.place) for _, line, _ in steps if line), default=0), Counter()
    for turn, line, said in steps:
        if not line:
            rest[turn.number('context')] += 1
            continue
        if rest:
            yield f'        {told_rest(rest)}'
            rest = Counter()
        yield f'{line.number:6}  context {line.context}  {line.place:<{width}}  {line.text}'
        if said:
            yield f'        {said}'
    if rest:
        yield f'        {told_rest(rest)}'


def told(teller, turns, start, more=()):
    """The story of turns from the words at the start, by words that are shared in these and in more turns."""
    memory, shared = Memory(start), shared_by([*turns, *more])
    teller.know(turns)
    if teller.holds(memory):
        yield f'        {teller.never[0]}, from the start on'
    yield from told_steps(steps_of(teller, turns, shared, memory))
    yield f'{len(turns)} turns: {NO_PROMISE}'


def first_held(teller, turns, start):
    """The turn behind which what is never to be is so for the first time, -1 for the start, or None; and the turn's line."""
    memory = Memory(start)
    teller.know(turns)
    if teller.holds(memory):
        return -1, None
    for turn in turns:
        if written := access_of(turn, 'written'):
            text = '; '.join(teller.deed(turn, memory))
            memory.write(written)
            if teller.holds(memory):
                return turn.stamp, f'context {turn.number("context")}  {teller.place(turn)}  {text}'
    return None, None


# ---- how contexts go on that are stuck


def going_on(binary, image, runs):
    """The turns with as many more of each context that hasn't halted, one context after the other for some rounds; and the contexts that have."""
    halted = set()
    for _ in range(outcomes.ROUNDS):
        for context in outcomes.contexts_of(image):
            if context not in halted:
                runs, reason = outcomes.further(binary, image, runs, context, outcomes.TURNS)
                halted |= {context} if reason else set()
    return runs, sorted(halted)


def deeds_behind(teller, turns, count, start):
    """The accesses of turns behind so many: the turn's number, whether its word is shared, and its context, its place and what it does."""
    memory, shared = Memory(start), shared_by(turns)
    for turn in turns:
        accesses, text = accesses_of(turn), '; '.join(teller.deed(turn, memory))
        if accesses and turn.stamp >= count:
            yield turn.stamp, any(each.address // WORD * WORD in shared for each in accesses), (turn.number('context'), teller.place(turn), text)
        if written := access_of(turn, 'written'):
            memory.write(written)


def told_waits(teller, turns, count, start):
    """What contexts do behind so many turns: each access of a shared word once, in order, and then what they do again and again in their last turns."""
    teller.know(turns)
    deeds, ends = list(deeds_behind(teller, turns, count, start)), {turn.number('context'): turn.stamp for turn in turns}
    often = Counter(deed for at, _, deed in deeds if at > ends[deed[0]] - outcomes.TURNS)
    again = [deed for deed, times in often.items() if times > 1]
    once = [deed for deed in dict.fromkeys(deed for _, is_shared, deed in deeds if is_shared) if deed not in again]
    width = max((len(place) for _, place, _ in (*once, *again)), default=0)
    for context, place, text in once + sorted(again):
        yield f'        context {context}  {place:<{width}}  {text}{", again and again" if (context, place, text) in again else ""}'
