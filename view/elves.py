"""An ELF file of an image whose source is in assembly, for a debugger: the code at its addresses, the source's labels, and the line of each word."""
import os
import re
import struct
from dataclasses import dataclass

LABEL = re.compile(r'\s*([A-Za-z_.][\w.]*)\s*:')
HEAD, SEGMENT, SECTION, SYMBOL = '>4sBBB9xHHIIIIIHHHHHH', '>8I', '>10I', '>IIIBBH'
EXECUTABLE, SPARC, LOADED, READ_AND_RUN = 2, 2, 1, 5
PROGBITS, SYMTAB, STRTAB, CODE_FLAGS = 1, 2, 3, 6
ASSEMBLER = 0x8001
ABBREVIATIONS = bytes([1, 0x11, 0, 0x10, 6, 0x11, 1, 0x12, 1, 0x03, 8, 0x1b, 8, 0x13, 5, 0, 0, 0])
OPCODE_LENGTHS = bytes([0, 1, 1, 1, 1, 0, 0, 0, 1])


@dataclass
class Part:
    """A section: its name, its kind and flags, its bytes, the section and the number that belong to it, and the size of its members."""
    name: str
    kind: int
    data: bytes
    flags: int = 0
    link: int = 0
    info: int = 0
    size: int = 0


def signed(number):
    """A number as DWARF writes one with a sign."""
    made = bytearray()
    while not -64 <= number < 64:
        made.append(number & 0x7f | 0x80)
        number >>= 7
    return bytes([*made, number & 0x7f])


def labels_of(source, numbers):
    """The labels of code as (address, name): each stands for the first word of its line or of one behind it. Numbers are lines by address."""
    words = sorted((line, address) for address, line in numbers.items())
    labels = []
    for number, text in enumerate(source, 1):
        match = LABEL.match(text.partition('!')[0])
        address = next((address for line, address in words if line >= number), None)
        if match and address is not None and not re.search(r'\.(word|half|byte|skip|align)\b', text):
            labels.append((address, match[1]))
    return labels if any(address == 0 for address, _ in labels) else [(0, 'start'), *labels]


def line_program(name, numbers):
    """The section .debug_line: the line of each word."""
    program, line = b'\0\5\2' + struct.pack('>I', 0), 1
    for address in sorted(numbers):
        program += b'\3' + signed(numbers[address] - line) + b'\1\2\4'
        line = numbers[address]
    program += b'\0\1\1'
    header = bytes([1, 1, 0xfb, 14, 10]) + OPCODE_LENGTHS + b'\0' + name.encode() + b'\0\0\0\0\0'
    body = struct.pack('>HI', 2, len(header)) + header + program
    return struct.pack('>I', len(body)) + body


def unit_of(name, length):
    """The section .debug_info: one source."""
    entry = b'\1' + struct.pack('>III', 0, 0, length) + b'\0'.join([name.encode(), os.getcwd().encode(), struct.pack('>H', ASSEMBLER)])
    body = struct.pack('>HIB', 2, 0, 4) + entry
    return struct.pack('>I', len(body)) + body


def symbols_of(labels):
    """The sections .symtab and .strtab."""
    names, rows = b'\0', struct.pack(SYMBOL, 0, 0, 0, 0, 0, 0)
    for address, name in labels:
        rows += struct.pack(SYMBOL, len(names), address, 0, 0, 0, 1)
        names += name.encode() + b'\0'
    return rows, names, len(labels) + 1


def elf_of(parts, length):
    """The bytes of a file with these sections, the first of which is the code."""
    parts = [*parts, Part('.shstrtab', STRTAB, b'')]
    parts[-1].data = b'\0' + b''.join(part.name.encode() + b'\0' for part in parts)
    rows, data, name = struct.pack(SECTION, *[0] * 10), b'', 1
    for part in parts:
        rows += struct.pack(SECTION, name, part.kind, part.flags, 0, 84 + len(data), len(part.data), part.link, part.info, 4, part.size)
        data += part.data + b'\0' * (-len(part.data) % 4)
        name += len(part.name) + 1
    head = struct.pack(HEAD, b'\x7fELF', 1, 2, 1, EXECUTABLE, SPARC, 1, 0, 52, 84 + len(data), 0, 52, 32, 1, 40, len(parts) + 1, len(parts))
    return head + struct.pack(SEGMENT, LOADED, 84, 0, 0, length, length, READ_AND_RUN, 4) + data + rows


def made_of(code, source=None, path='', numbers=None):
    """The ELF file of code, with the lines and labels of a source where there is one."""
    symbols, names, count = symbols_of(labels_of(source, numbers) if source else [(0, 'start')])
    parts = [Part('.text', PROGBITS, code, CODE_FLAGS), Part('.symtab', SYMTAB, symbols, link=3, info=count, size=16), Part('.strtab', STRTAB, names)]
    if source:
        parts += [Part('.debug_info', PROGBITS, unit_of(path, len(code))), Part('.debug_abbrev', PROGBITS, ABBREVIATIONS),
                  Part('.debug_line', PROGBITS, line_program(path, numbers))]
    return elf_of(parts, len(code))
