#!/usr/bin/env python3
"""Writes the source of an image by the opcode tables of the SPARC V8 manual (appendix F) and the grammar of docs/FORMATS.md, apart from the
program: examples/dis/manual.py < IMAGE."""
import sys
from pathlib import Path

sys.path.insert(0, str(Path(__file__).resolve().parent.parent.parent / 'tools'))
sys.dont_write_bytecode = True
from alewife import LINE_BYTES, WORD, image_of

REGISTERS = [f'%{bank}{number}' for bank in 'goli' for number in range(8)]
CONDITIONS = 'n', 'e', 'le', 'l', 'leu', 'cs', 'neg', 'vs', 'a', 'ne', 'g', 'ge', 'gu', 'cc', 'pos', 'vc'
SETS_CODES = {0x00: 'add', 0x01: 'and', 0x02: 'or', 0x03: 'xor', 0x04: 'sub', 0x05: 'andn', 0x06: 'orn', 0x07: 'xnor', 0x08: 'addx', 0x0C: 'subx'}
OPERATIONS = {**SETS_CODES, **{op3 + 0x10: name + 'cc' for op3, name in SETS_CODES.items()}, 0x0A: 'umul', 0x0B: 'smul'}
SHIFTS = {0x25: 'sll', 0x26: 'srl', 0x27: 'sra'}
LOADS = {0x00: 'ld', 0x01: 'ldub', 0x02: 'lduh', 0x09: 'ldsb', 0x0A: 'ldsh', 0x0D: 'ldstub', 0x0F: 'swap'}
STORES = {0x04: 'st', 0x05: 'stb', 0x06: 'sth'}
RDY, WRY, JMPL, TICC = 0x28, 0x30, 0x38, 0x3A
# Of op and op3 how a word of format 3 is written, and how many bits the number has that may be its operand.
FORMS = {
    **{(2, op3): (name + ' {rs1},{operand},{rd}', 13) for op3, name in OPERATIONS.items()},
    **{(2, op3): (name + ' {rs1},{operand},{rd}', 5) for op3, name in SHIFTS.items()},
    (2, RDY): ('rd %y,{rd}', 13), (2, WRY): ('wr {rs1},{operand},%y', 13), (2, JMPL): ('jmpl {sum},{rd}', 13), (2, TICC): ('t{condition} {sum}', 7),
    **{(3, op3): (name + ' [{sum}],{rd}', 13) for op3, name in LOADS.items()},
    **{(3, op3): (name + ' {rd},[{sum}]', 13) for op3, name in STORES.items()},
}
MUST_BE_0 = {(2, RDY): range(19), (2, WRY): range(25, 30), (2, TICC): range(29, 30)}


def field(word, low, width):
    """So many bits of a word, from a bit on."""
    return word >> low & (1 << width) - 1


def signed(number, width):
    """A number of so many bits, with its sign."""
    return number - (number >> width - 1 << width)


def word_text(number):
    """A word in hexadecimal digits, as sources have it."""
    return f'0x{number % (1 << 32):08x}'


def sum_of(first, second, of_trap):
    """Two operands as an address has them: without rs2 where that is %g0, and of a trap without rs1 where that is %g0 before a number."""
    if second[0] == '%':
        return first if second == '%g0' else f'{first}+{second}'
    return second if of_trap and first == '%g0' else f'{first}{int(second):+d}'


def format_3(word):
    """The statement of a word of format 3, or None."""
    key = word >> 30, field(word, 19, 6)
    form, width = FORMS.get(key, (None, 13))
    is_number = field(word, 13, 1)
    beside = field(word, width, 13 - width) if is_number else field(word, 5, 8)
    if form is None or beside or any(field(word, bit, 1) for bit in MUST_BE_0.get(key, ())):
        return None
    number = field(word, 0, width)
    operand = str(signed(number, 13) if width == 13 else number) if is_number else REGISTERS[field(word, 0, 5)]
    rs1 = REGISTERS[field(word, 14, 5)]
    return form.format(rd=REGISTERS[field(word, 25, 5)], condition=CONDITIONS[field(word, 25, 4)], rs1=rs1, operand=operand,
                       sum=sum_of(rs1, operand, key == (2, TICC)))


def format_2(word, address):
    """The statement of SETHI or of a branch, or None: of a branch too whose target is no address."""
    target = address + WORD * signed(field(word, 0, 22), 22)
    if field(word, 22, 3) == 4:
        return 'nop' if word == 4 << 22 else f'sethi %hi({word_text(word << 10)}),{REGISTERS[field(word, 25, 5)]}'
    if field(word, 22, 3) != 2 or target not in range(1 << 32):
        return None
    return f'b{CONDITIONS[field(word, 25, 4)]}{",a" * field(word, 29, 1)} {word_text(target)}'


def statement_of(word, address):
    """The statement of a word at an address."""
    op = word >> 30
    if op == 1:
        return f'call {word_text(address + WORD * word)}'
    return (format_3(word) if op else format_2(word, address)) or f'.word {word_text(word)}'


def words_in(data):
    """The words of bytes."""
    return [int.from_bytes(data[at:at + WORD], 'big') for at in range(0, len(data), WORD)]


def source_of(data):
    """The source of the bytes of an image."""
    image = image_of(data)
    sizes, words = image.sizes, enumerate(words_in(image.code))
    lines = [f'.mesh {sizes.width},{sizes.height}', f'.contexts {sizes.contexts}', f'.lines {sizes.lines}']
    lines += [f'{statement_of(word, WORD * at)} ! {WORD * at:08x} {word:08x}' for at, word in words]
    lines += [f'.start {node},{slot},{word_text(address)}' for node, slot, address in image.starts]
    lines += [f'.always {number}' for number in image.always]
    for number, body in image.data.items():
        lines += [f'.shared {LINE_BYTES * number}', '.word ' + ','.join(map(word_text, words_in(body)))]
    return '\n'.join(lines) + '\n'


if __name__ == '__main__':
    sys.stdout.write(source_of(sys.stdin.buffer.read()))
