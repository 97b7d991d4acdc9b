"""The variables of a linked program in C, as its debug information has them: the name of each part of shared data, and what a name stands for."""
import ast
import bisect
import re
from collections import namedtuple
from dataclasses import dataclass, field

import cross
import expressions
from alewife import SHARED
from frames import ViewError

HEAD = re.compile(r' *<(\d+)><([0-9a-f]+)>: Abbrev Number: \d+ \(DW_TAG_(\w+)\)')
SAID = re.compile(r' *<[0-9a-f]+> +DW_AT_(\w+) *: (.*)')
INDIRECT = re.compile(r'\(indirect (?:line )?string, offset: 0x[0-9a-f]+\): ')
FIXED = re.compile(r'\(DW_OP_addr: ([0-9a-f]+)\)')
SAME = {'typedef', 'const_type', 'volatile_type', 'atomic_type', 'restrict_type'}
SIGNED = {'5', '6'}
DIGITS = 1 << 16

# A part of shared data: its name, its address, its type, and how many dimensions of an array have been chosen.
Part = namedtuple('Part', 'name address kind chosen', defaults=(0,))


@dataclass
class Entry:
    """An entry of the debug information: its tag, its attributes, and the entries in it."""
    tag: str
    said: dict = field(default_factory=dict)
    parts: list = field(default_factory=list)

    def number(self, name):
        """An attribute that is a number, or 0."""
        return int(self.said.get(name, '0').split()[0], 0)


def entries_of(text):
    """The entries that objdump tells, by their offsets."""
    found, open_entries = {}, []
    for line in text.splitlines():
        if head := HEAD.match(line):
            del open_entries[int(head[1]):]
            entry = found[head[2]] = Entry(head[3])
            for around in open_entries[-1:]:
                around.parts.append(entry)
            open_entries.append(entry)
        elif (said := SAID.match(line)) and open_entries:
            open_entries[-1].said[said[1]] = INDIRECT.sub('', said[2]).strip()
    return found


class Variables:
    """The variables of a linked program that lie in shared data."""

    def __init__(self, elf):
        self.entries = entries_of(cross.called(['sparc64-linux-gnu-objdump', '--dwarf=info', elf]))
        self.whole = sorted(self.fixed(), key=lambda part: part.address)
        self.named = {part.name: part for part in reversed(self.whole)}
        self.starts = [part.address for part in self.whole]

    def fixed(self):
        """The variables that have an address of shared data."""
        for entry in self.entries.values():
            at = FIXED.search(entry.said.get('location', '')) if entry.tag == 'variable' and 'name' in entry.said else None
            if at and SHARED <= int(at[1], 16) < cross.UNUSED_AT and 'type' in entry.said:
                yield Part(entry.said['name'], int(at[1], 16), self.kind_of(entry))

    def kind_of(self, entry):
        """The type of an entry, without names of it and what qualifies it."""
        kind = self.entries[entry.said['type'].strip('<>').removeprefix('0x')]
        return self.kind_of(kind) if kind.tag in SAME and 'type' in kind.said else kind

    def counts(self, kind):
        """How many elements an array has in each dimension."""
        return [part.number('upper_bound') + 1 if 'upper_bound' in part.said else part.number('count') for part in kind.parts]

    def size(self, kind, chosen=0):
        """The bytes of a type; of an array behind so many dimensions."""
        if kind.tag != 'array_type':
            return kind.number('byte_size')
        size = self.size(self.kind_of(kind))
        for count in self.counts(kind)[chosen:]:
            size *= count
        return size

    def element(self, part, number):
        """An element of an array."""
        chosen = part.chosen + 1
        kind = part.kind if chosen < len(self.counts(part.kind)) else self.kind_of(part.kind)
        step = self.size(part.kind, chosen)
        return Part(f'{part.name}[{number}]', part.address + number * step, kind, chosen if kind is part.kind else 0)

    def members(self, part):
        """The parts that a structure or an array consists of, or none of one word."""
        if part.kind.tag == 'array_type':
            return (self.element(part, number) for number in range(self.counts(part.kind)[part.chosen]))
        rows = part.kind.parts if part.kind.tag in ('structure_type', 'union_type') else ()
        return (Part(f'{part.name}.{row.said.get("name", "")}'.rstrip('.'), part.address + row.number('data_member_location'), self.kind_of(row))
                for row in rows if row.tag == 'member')

    def words(self, part):
        """The parts of a part that have no parts."""
        members = list(self.members(part))
        return [word for member in members for word in self.words(member)] if members else [part]

    def at(self, address):
        """The word in which an address lies, or None."""
        number = bisect.bisect_right(self.starts, address) - 1
        part = self.whole[number] if number >= 0 else None
        if not part or address >= part.address + self.size(part.kind):
            return None
        while members := [each for each in self.members(part) if each.address <= address < each.address + self.size(each.kind, each.chosen)]:
            part = members[0]
        return part

    def name(self, address):
        """The name of what lies at an address, or nothing."""
        part = self.at(address)
        beyond = address - part.address if part else 0
        return f'{part.name}{f"+{beyond}" if beyond else ""}' if part else ''

    def shown(self, part, value):
        """A value as one of a part's type: small ones in decimal."""
        bits = 8 * self.size(part.kind)
        if part.kind.said.get('encoding', '').split('\t')[0] in SIGNED and value >> bits - 1:
            return str(value - (1 << bits))
        return str(value) if value < DIGITS and part.kind.tag != 'pointer_type' else f'0x{value:x}'

    # ---- by the names of an expression

    def part_named(self, node, memory):
        """What a name, an element or a member of an expression stands for. Without a memory elements are by numbers."""
        if not isinstance(node, expressions.NAMES):
            raise ViewError(f"'{ast.unparse(node)}' is no variable")
        if isinstance(node, ast.Name):
            if node.id not in self.named:
                raise ViewError(f'the program has no variable {node.id} in shared data')
            return self.named[node.id]
        part = self.part_named(node.value, memory)
        if isinstance(node, ast.Attribute):
            found = [each for each in self.members(part) if part.kind.tag != 'array_type' and each.name == f'{part.name}.{node.attr}']
            if not found:
                raise ViewError(f'{part.name} has no member {node.attr}')
            return found[0]
        number = expressions.value_of(node.slice, self, memory)
        if part.kind.tag != 'array_type' or not 0 <= number < self.counts(part.kind)[part.chosen]:
            raise ViewError(f'{part.name} has no element {number}')
        return self.element(part, number)

    def value(self, node, memory):
        """The value of a name, an element or a member in a memory."""
        part = self.part_named(node, memory)
        if memory is None:
            raise ViewError(f'{part.name} is no number')
        if list(self.members(part)):
            raise ViewError(f'{part.name} is more than a word')
        value = memory.read(part.address, self.size(part.kind))
        return int(self.shown(part, value), 0)
