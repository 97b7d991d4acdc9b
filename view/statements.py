"""What an event of a run is: a message, or an instruction with its statement, its line of the source, and the registers that it reads."""
import bisect
import re
import struct
import tempfile
from collections import Counter, namedtuple
from pathlib import Path

import cross
from alewife import LINE_BYTES, SHARED, WORD
from frames import ViewError

LISTED = re.compile(r'([0-9a-f]{8}) ([0-9a-f]{8}) ([0-9]+)')
DISASSEMBLED = re.compile(r'^ *([0-9a-f]+):\t(.*)$', re.M)
BRANCH, TRAP, ALWAYS = 2, 0x3A, (0, 8)
WITH_RD = {0x04, 0x05, 0x06, 0x0F}
WAYS = {'ready': 'is ready', 'wait': 'waits for line', 'hold': 'has just got line', 'trapped': 'has trapped with tt', 'halted': 'has halted'}
MOST_TOLD = 4
# Where a linked program has its stacks: the address behind all of them, the bytes of each, and how many there are; and by --spread the bytes of a context's
# part, and the address behind the first context's elements.
Stacks = namedtuple('Stacks', 'end size count part elements', defaults=(0,) * 5)


# ---- the code


class Code:
    """The code of an image. Its statements are words in hexadecimal. Of a linked program in C the assertions are known by the addresses of their traps,
    each as its place and its text."""
    assertions = {}

    def __init__(self, image):
        self.words = [word for word, in struct.iter_unpack('>I', image.code)]

    def word(self, address):
        """The word at an address, or None."""
        return self.words[address // WORD] if address < WORD * len(self.words) and address % WORD == 0 else None

    def statement(self, address):
        """The statement at an address, and where it is in the source, in a text."""
        return f'word 0x{self.word(address):08x}' if self.word(address) is not None else 'no code'

    def shown(self, _):
        """The statements at addresses, and their places in the source, by address: no one knows."""
        return {}

    def asserted(self, address):
        """The assertion that traps at an address, as a text behind a colon, or nothing."""
        return f': {self.assertions[address][1]}' if address in self.assertions else ''

    def name(self, _):
        """What lies at an address of shared data: no one knows."""
        return ''

    def line_name(self, _):
        """What lies in the line at an address: no one knows."""
        return ''


class Linked(Code):
    """The code of a linked program: statements are those of objdump, places those of addr2line, names the linker's."""

    def __init__(self, image, elf):
        super().__init__(image)
        cross.compiler()
        self.elf = elf
        with tempfile.TemporaryDirectory() as folder:
            if not Path(elf).is_file():
                raise ViewError(f"can't read {elf}: it is no file")
            if cross.section(elf, '.text', folder) != image.code:
                raise ViewError(f"{elf} isn't the program of this trace: its code is another")
        self.symbols, self.end = variables_of(elf)
        self.assertions = cross.assertions_of(elf)
        self.stacks = stacks_of(elf)

    def statement(self, address):
        if self.word(address) is None:
            return super().statement(address)
        words = ['sparc64-linux-gnu-objdump', '-d', '--no-show-raw-insn', f'--start-address={address}', f'--stop-address={address + WORD}', self.elf]
        text = ' '.join(DISASSEMBLED.search(cross.called(words))[2].split('!')[0].split())
        return f'{text}  {cross.places_of(self.elf, [f"0x{address:08x}"])[f"0x{address:08x}"]}{self.asserted(address)}'

    def shown(self, addresses):
        placed = cross.places_of(self.elf, [f'0x{address:08x}' for address in addresses])
        texts = disassembled(self.elf)
        return {address: (texts.get(address, ''), placed.get(f'0x{address:08x}', '') + self.asserted(address)) for address in addresses}

    def line_name(self, address):
        if stack_at(self.stacks, address) or address >= self.end:
            return stack_at(self.stacks, address)
        first, whose = element_at(self.stacks, address)
        names = [name + whose for value, name in self.symbols if first <= value < first + LINE_BYTES]
        covering = [] if any(value == first for value, _ in self.symbols) else [self.name(address).strip(' ()')]
        return ', '.join(filter(None, covering + names))

    def name(self, address):
        stack = stack_at(self.stacks, address)
        if stack or address >= self.end:
            return f' ({stack})' if stack else ''
        first, whose = element_at(self.stacks, address)
        at = bisect.bisect_right(self.symbols, (first, '\x7f')) - 1
        if at < 0:
            return ''
        beyond = first - self.symbols[at][0]
        return f' ({self.symbols[at][1]}{f"+{beyond}" if beyond else ""}{whose})'


def variables_of(elf):
    """The variables of a linked program in shared data, each as address and name, and the address behind them."""
    symbols = cross.symbols_of(elf)
    end = symbols.get('data_end', 0)
    return sorted((value, name) for name, value in symbols.items() if SHARED <= value < end), end


def stacks_of(elf):
    """The stacks of a linked program."""
    symbols = cross.symbols_of(elf)
    return Stacks(*(symbols.get(name, 0) for name in ('shared_end', 'stack_size', 'contexts', 'part_bytes', 'each_end')))


def stack_at(stacks, address):
    """The stack in which an address lies, as 'stack 0', or nothing. That of context 0 is the last one, or by --spread each ends with its context's part."""
    if stacks.part:
        number, place = divmod(address - SHARED, stacks.part)
        return f'stack {number}' if number < stacks.count and place >= stacks.part - stacks.size else ''
    number = (stacks.end - 1 - address) // stacks.size if stacks.size else stacks.count
    return f'stack {number}' if 0 <= number < stacks.count else ''


def element_at(stacks, address):
    """The address in the first context's part for one of the elements of another context, and whose it is, in words; another address as it is."""
    number, place = divmod(address - SHARED, stacks.part) if stacks.part else (0, 0)
    return (SHARED + place, f' of context {number}') if number and SHARED + place < stacks.elements else (address, '')


def disassembled(elf):
    """The statements of a linked program by address, as objdump has them."""
    rows = DISASSEMBLED.findall(cross.called(['sparc64-linux-gnu-objdump', '-d', '-j', '.text', '--no-show-raw-insn', elf]))
    return {int(address, 16): ' '.join(text.split('!')[0].split()) for address, text in rows}


class Listed(Code):
    """The code of a source in assembly, by its listing: statements are lines of the source."""

    def __init__(self, image, listing, source):
        super().__init__(image)
        rows = [LISTED.fullmatch(row) for row in read_text(listing).splitlines()]
        if not all(rows) or [int(row[2], 16) for row in rows] != self.words:
            raise ViewError(f"{listing} isn't the listing of this trace's code")
        self.source, self.lines = Path(source).name, read_text(source).splitlines()
        self.numbers = {int(row[1], 16): int(row[3]) for row in rows}
        if max(self.numbers.values(), default=0) > len(self.lines):
            raise ViewError(f'{source} has {len(self.lines)} lines, and the listing names line {max(self.numbers.values())}')

    def statement(self, address):
        if address not in self.numbers:
            return super().statement(address)
        return '  '.join(self.shown([address])[address])

    def shown(self, addresses):
        found = {address: self.numbers[address] for address in addresses if address in self.numbers}
        return {address: (' '.join(self.lines[number - 1].split('!')[0].split()), f'{self.source}:{number}') for address, number in found.items()}


def read_text(path):
    """A file's text."""
    try:
        return Path(path).read_text(errors='replace')
    except OSError as fault:
        raise ViewError(f"can't read {path}: {fault.strerror}") from fault


# ---- an instruction


def read_by(word):
    """The numbers of the registers that an instruction reads, in its order, and whether it reads the condition codes."""
    op, op3, rd, rs1 = word >> 30, word >> 19 & 63, word >> 25 & 31, word >> 14 & 31
    if op < 2:
        return [], op == 0 and word >> 22 & 7 == BRANCH and rd & 15 not in ALWAYS
    if op == 2 and op3 == cross.READ_Y:
        return [], False
    numbers = [rd] * (op == 3 and op3 in WITH_RD) + [rs1] + [word & 31] * (not word >> 13 & 1)
    return [number for number in dict.fromkeys(numbers) if number], op == 2 and op3 == TRAP and rd & 15 not in ALWAYS


def reached_by(word, registers):
    """The address that a load or store is of, or None of another instruction."""
    if word >> 30 != 3:
        return None
    beyond = (word & 0x1fff) - (word & 0x1000) * 2 if word >> 13 & 1 else registers[word & 31]
    return (registers[word >> 14 & 31] + beyond) % (1 << 32)


def told_place(code, address):
    """An address of shared data, with its line and what lies there."""
    if address < SHARED:
        return f'0x{address:08x}'
    return f'0x{address:08x}, line {(address - SHARED) // LINE_BYTES}{code.name(address)}'


def told_instruction(code, context, name):
    """The lines of the instruction that a context is at: its statement, what it reads, and the address that it loads or stores."""
    yield f'  {name} at 0x{context.pc:08x}: {code.statement(context.pc)}'
    word = code.word(context.pc)
    if word is None:
        return
    numbers, of_codes = read_by(word)
    reads = [f'{cross.REGISTERS[number]} 0x{context.registers[number]:08x}' for number in numbers] + [f'NZVC {context.codes}'] * of_codes
    if reads:
        yield f'    reads {", ".join(reads)}'
    if reached_by(word, context.registers) is not None:
        yield f'    of {told_place(code, reached_by(word, context.registers))}'


# ---- an event


def message_of(state, event):
    """What an event that is no instruction is, in words that lack the line, and the number of its line."""
    kind, node, *rest = event.split()
    if kind == 'E':
        return f'node {node} evicts its copy', state.copy(int(node), rest[0]).line
    message = state.queue(f'l{node}.{rest[0]}' if kind == 'D' else f'q{node}')[0]
    taken = f'node {rest[0]} takes {message.kind} from node {node}' if kind == 'D' else f'the trap handler of node {node} takes {message.kind}'
    return taken, message.line


def told_event(code, state, event):
    """The lines of an event, by the state before it: what it is, the instruction that runs or those that wait for its line, and where others are, first
    those of a place with few."""
    if event[0] == 'I':
        node = event.split()[1]
        concerned = [state.next_of(int(node))]
        yield f'node {node} runs an instruction of context {concerned[0].number}'
    else:
        text, line = message_of(state, event)
        concerned = state.waiting_for(line)
        yield f'{text}: line {line}{code.name(SHARED + LINE_BYTES * line)}'
    others = [each for each in state.contexts() if each not in concerned and each.status != 'halted']
    at = Counter(each.pc for each in others)
    others.sort(key=lambda each: (at[each.pc], each.number))
    for context in [*concerned[:MOST_TOLD], *others[:MOST_TOLD]]:
        way, _, of = context.status.partition(' ')
        yield from told_instruction(code, context, f'context {context.number} {WAYS[way]}{of and f" {of}"}')
    if len(others) > MOST_TOLD:
        yield f'  and {len(others) - MOST_TOLD} more contexts'


def told_standing(code, contexts):
    """Where contexts stand that haven't halted, of code of which places are known: a line for each place, those of most contexts first."""
    going = {context.number: context.pc for context in contexts if context.status != 'halted'}
    shown = code.shown(sorted(set(going.values())))
    return cross.told_standing({number: shown.get(pc, ('', f'0x{pc:08x}'))[1] for number, pc in going.items()}) if shown else ()
