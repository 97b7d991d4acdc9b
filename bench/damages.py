"""Damages: each takes a source of chance and the bytes of a good input, and gives other bytes.

Those of texts go by lines and words, and those of images by fields and members. `mended` makes the counts of a damaged text right
again, so that the fault lies deeper. Every damage gives back something for any bytes, and the same for the same chance.
"""
import re
import struct

from alewife import ALWAYS, DATA, ENTRY as ENTRY_FORM, HEAD, IMAGE_ROW, LISTS, START, WORD, cut_in_rows

LIES = [0, 1, 2**8, 2**16, 2**31, 2**32 - 1, 2**32, 2**63, 2**64 - 1, 2**64, 10**30]
ODD_BYTES = b'\x00\t\n\r !+-.0189:AFafxz\x7f\x80\xff'
NUMBER = re.compile(rb'\b(?:0x[0-9a-fA-F]+|[0-9]+)\b')
COUNT = re.compile(f'^(?:image|{"|".join(LISTS)}) ([0-9]+)$'.encode(), re.M)


def replaced(data, match, piece):
    return data[: match.start()] + piece + data[match.end() :]


def place_in(chance, data):
    """Somewhere between the bytes, or the lines, or at an end."""
    return chance.randrange(len(data) + 1)


# ---- any bytes


def flipped(chance, data):
    """One bit of one byte is turned round."""
    at = chance.randrange(len(data) or 1)
    return data[:at] + bytes(byte ^ 1 << chance.randrange(8) for byte in data[at : at + 1]) + data[at + 1 :]


def other_byte(chance, data):
    """One byte is another, or one more."""
    at = place_in(chance, data)
    return data[:at] + bytes([chance.choice(ODD_BYTES)]) + data[at + chance.randrange(2) :]


def cut_end(chance, data):
    return data[: place_in(chance, data)]


def longer_end(chance, data):
    return data + chance.choice([b'\n', b' ', b'\x00', b'end\n', b'!', data[-1:], data[-40:], bytes(chance.randrange(1, 30))])


# ---- lines


def lines_of(data):
    return data.splitlines(keepends=True)


def dropped_line(chance, data):
    lines = lines_of(data)
    at = chance.randrange(len(lines) or 1)
    return b''.join(lines[:at] + lines[at + 1 :])


def doubled_line(chance, data):
    lines = lines_of(data)
    at = chance.randrange(len(lines) or 1)
    return b''.join(lines[: at + 1] + lines[at:])


def exchanged_lines(chance, data):
    lines = lines_of(data)
    if lines:
        a, b = chance.randrange(len(lines)), chance.randrange(len(lines))
        lines[a], lines[b] = lines[b], lines[a]
    return b''.join(lines)


def next_lines_exchanged(chance, data):
    lines = lines_of(data)
    at = chance.randrange(len(lines) or 1)
    return b''.join(lines[:at] + lines[at : at + 2][::-1] + lines[at + 2 :])


def joined_lines(chance, data):
    ends = [at for at, byte in enumerate(data) if byte == 10]
    at = chance.choice(ends or [0])
    return data[:at] + chance.choice([b'', b' ', b'\r']) + data[at + 1 :]


def carriage_return(chance, data):
    ends = [at for at, byte in enumerate(data) if byte == 10]
    if chance.random() < 0.2:
        return data.replace(b'\n', b'\r\n')
    at = chance.choice(ends or [0])
    return data[:at] + b'\r' + data[at:]


# ---- words


def other_number(chance, data):
    """A number is one more or less, has a zero before it, is huge, or has another digit."""
    found = list(NUMBER.finditer(data))
    if not found:
        return data
    match = chance.choice(found)
    word = match[0]
    is_hex = word.startswith(b'0x')
    value = int(word, 16 if is_hex else 10)
    spell = (lambda number: b'0x%08x' % (number % 2**36)) if is_hex else (lambda number: b'%d' % number)
    at = chance.randrange(len(word))
    choices = [spell(value + 1), spell(value - 1), spell(value + 4), b'0' + word, b'-' + word, b'+' + word, word + b'0']
    choices += [spell(chance.choice(LIES)), word[:at] + b'%x' % chance.randrange(16) + word[at + 1 :], word[:at] + word[at + 1 :]]
    return replaced(data, match, chance.choice(choices))


def lying_count(chance, data):
    """A count tells another number than there is."""
    found = list(COUNT.finditer(data))
    if not found:
        return other_number(chance, data)
    match = chance.choice(found)
    told = int(match[1]) + chance.choice([-1, 1, 2]) if chance.random() < 0.5 else chance.choice(LIES)
    return data[: match.start(1)] + b'%d' % told + data[match.end(1) :]


def other_blank(chance, data):
    blanks = list(re.finditer(rb'[ \n]', data))
    if not blanks:
        return b' ' + data
    match = chance.choice(blanks)
    piece = chance.choice([b'  ', b'\t', b'', b' ' + match[0], match[0] + b' ', match[0] * 2])
    return replaced(data, match, piece)


def other_case(chance, data):
    letters = [match.span() for match in re.finditer(rb'[A-Za-z]+', data)]
    start, end = chance.choice(letters or [(0, 0)])
    if chance.random() < 0.5:
        end = min(end, start + 1)
    return data[:start] + data[start:end].swapcase() + data[end:]


def exchanged_words(chance, data):
    words = list(re.finditer(rb'[^\s,\[\]]+', data))
    if len(words) < 2:
        return data
    first, second = sorted(chance.sample(words, 2), key=lambda match: match.start())
    return data[: first.start()] + second[0] + data[first.end() : second.start()] + first[0] + data[second.end() :]


def word_from_elsewhere(chance, data):
    """A word stands in place of another of the same text."""
    words = list(re.finditer(rb'[^\s,\[\]]+', data))
    return replaced(data, chance.choice(words), chance.choice(words)[0]) if words else data


def other_digit(chance, data):
    """A digit of an image's hexadecimal, or of a word of memory, is another."""
    found = list(re.finditer(rb'(?<=0x)[0-9a-f]{8}|^[0-9a-f]{8,64}$', data, re.M))
    if not found:
        return other_number(chance, data)
    at = chance.randrange(*chance.choice(found).span())
    return data[:at] + b'%x' % chance.randrange(16) + data[at + 1 :]


# ---- damages that keep the form


NEAR = [0, 1, 2, 3, 4, 8, 12, 15, 16, 31, 32, 63, 64, 127, 128, 255, 1023, 4095, 4096, 4097, 65535, 65536]
NEAR += [2**22 - 1, 2**22, 0x40000000, 2**31 - 1, 2**31, 2**32 - 1, 2**32]
REGISTERS = ['%g0', '%g1', '%g7', '%o0', '%o6', '%o7', '%l0', '%i7', '%sp', '%fp', '%r0', '%r31', '%y', '%g8', '%hi(1)', '%lo(1)']
STATEMENTS = """add addcc sub subcc and andn orcc xnor xor addx subxcc umul smul sll srl sra rd wr jmpl call ba bne be bgu bvs,a b bz ta te tvs sethi ld
ldub ldsh lduh ldsb st stb sth ldstub swap nop cmp mov tst clr jmp retl set .mesh .contexts .lines .text .shared .word .half .byte .skip .align
.equ .start .always""".split()
TOKEN = re.compile(rb'%[a-z]+[0-9]*|\b[0-9][0-9a-fx]*|[.]?[a-z_]+(?=[ \t:,\n])')


def other_of_its_kind(chance, data):
    """In a source: a register, a number, or a statement's word or name is another one."""
    found = list(TOKEN.finditer(data))
    if not found:
        return data
    match = chance.choice(found)
    if match[0].startswith(b'%'):
        return replaced(data, match, chance.choice(REGISTERS).encode())
    if match[0][:1].isdigit():
        number = chance.choice(NEAR) + chance.choice([0, 0, 1])
        return replaced(data, match, (chance.choice(['%d', '0x%x', '-%d', '.+%d', '.-%d']) % number).encode())
    names = [other[0].decode() for other in found if other[0][:1].isalpha()]
    return replaced(data, match, chance.choice(STATEMENTS + names).encode())


MORE_LINES = [
    *(' ' + directive for directive in '.shared 0|.shared 0x20|.shared here|.word 1|.word 0,-1|.half 1|.byte 1,2,3|.skip 4|.skip -4|.skip 1'.split('|')),
    *(' ' + directive for directive in '.align 16|.align 3|.text|.start 0,0,0|.start 2,0,first|.always 0|.always 4|.equ here,1'.split('|')),
    *' .equ new,here+1|first: nop|last:| .mesh 1,1| .contexts 2| .lines 3| set last,%g1| ba last| ta 200'.split('|'),
    ' .shared 0\n .word 1\n .shared 2\n .byte 1\n .text',
    ' .shared 1\n .half 1\n .text',
    ' .shared 16\n .skip -1\n .byte 7\n .text',
]


def one_line_more(chance, data):
    """In a source: a statement or a label stands before a line."""
    lines = lines_of(data)
    at = place_in(chance, lines)
    return b''.join([*lines[:at], chance.choice(MORE_LINES).encode() + b'\n', *lines[at:]])


PARAMETERS = {b'pointers': [1, 2, 8, 9, 0], b'sets': [4, 8, 4096, 6, 8192], b'limit': [1, 20, 1048576, 1048577, 0]}


def other_parameter(chance, data):
    """A parameter of a trace is another one, in its range or just beyond it."""
    found = list(re.finditer(rb'(pointers|sets|limit) [0-9]+', data))
    if not found:
        return near_number(chance, data)
    match = chance.choice(found)
    return replaced(data, match, match[1] + b' %d' % chance.choice(PARAMETERS[match[1]]))


TABLE_LINE = re.compile(rb'^(?:[0-9]+ [IDHE] .*|[0-9]+ [0-9]+|[0-9]+ 0x.*|0x.*|(?:node|context|pending|cache|home|packet|link) .*)\n', re.M)
ENTRY = re.compile(f'^{ENTRY_FORM}$'.encode(), re.M)


def other_row(chance, data):
    """A row of a text's tables is left out, stands twice, changes places with another, or is the last."""
    rows = [match.span() for match in TABLE_LINE.finditer(data)]
    if len(rows) < 2:
        return dropped_line(chance, data)
    (start, end), (other, behind) = sorted(chance.sample(rows, 2))
    row, second = data[start:end], data[other:behind]
    tables_end = chance.choice(rows)[1]
    return chance.choice([
        data[:start] + data[end:],
        data[:end] + row + data[end:],
        data[:start] + second + data[end:other] + row + data[behind:],
        data[:start] + second + row + data[end:other] + data[behind:],
        data[:start] + data[max(start, tables_end) :],
    ])


def near_number(chance, data):
    """A number of a text's tables is a little more or less."""
    rows = list(TABLE_LINE.finditer(data))
    if not rows:
        return other_number(chance, data)
    row = chance.choice(rows)
    match = chance.choice(list(re.finditer(rb'\b(?:0x[0-9a-f]+|[0-9]+)\b', row[0])))
    at, word = row.start() + match.start(), match[0]
    is_hex = word.startswith(b'0x')
    value = max(0, int(word, 16 if is_hex else 10) + chance.choice([-4, -1, 1, 1, 2, 4]))
    return data[:at] + (b'0x%08x' if is_hex else b'%d') % value + data[at + len(word) :]


def other_entry(chance, data):
    """An entry of a trace is one of another kind, or of other nodes."""
    found = list(ENTRY.finditer(data))
    if not found:
        return near_number(chance, data)
    match = chance.choice(found)
    second = match[4] or match[3]
    first = match[3]
    kinds = [b'I ' + first, b'H ' + first, b'D %s %s' % (first, second), b'D %s %s' % (second, first), b'E %s %s' % (first, second)]
    return replaced(data, match, match[1] + b' ' + chance.choice(kinds))


# ---- images


HEADER = [(4, 2), (6, 1), (7, 1), (8, 1), (9, 1), (10, 2), (12, 4), (16, 4), (20, 4), (24, 4)]
SECTIONS = [(12, WORD), (16, DATA.size), (20, START.size), (24, ALWAYS.size)]
HEAD_BYTES = HEAD.size


def other_field(chance, data):
    """A field of the head, or any word behind it, is one more or less, or huge."""
    if chance.random() < 0.5 or len(data) <= HEAD_BYTES + 4:
        at, size = chance.choice(HEADER)
    else:
        at, size = HEAD_BYTES + 4 * chance.randrange((len(data) - HEAD_BYTES) // 4), 4
    value = int.from_bytes(data[at : at + size], 'big')
    told = chance.choice([value + 1, value - 1, value + 4, chance.choice(LIES), chance.randrange(300)])
    return data[:at] + (told % 256**size).to_bytes(size, 'big') + data[at + size :]


def sections_of(data):
    """Where the count of each section stands, the size of a member, and where its members begin and end."""
    at = HEAD_BYTES
    for field, size in SECTIONS:
        count = struct.unpack_from('>I', data, field)[0]
        yield field, size, at, at + size * count
        at += size * count


def other_members(chance, data):
    """A member of a table is left out, stands twice, or changes places with the next; the count says so."""
    if len(data) < HEAD_BYTES:
        return data
    field, size, start, end = chance.choice(list(sections_of(data)))
    if end > len(data) or start == end:
        return other_field(chance, data)
    members = [data[at : at + size] for at in range(start, end, size)]
    at = chance.randrange(len(members))
    here = members[at : at + 2]
    members[at : at + 2] = chance.choice([here[1:], here[:1] + here, here[::-1]])
    head = data[:field] + struct.pack('>I', len(members)) + data[field + 4 : start]
    return head + b''.join(members) + data[end:]


def other_instruction(chance, data):
    """A code word has other bits in one of its fields, or is that of another place."""
    if len(data) < HEAD_BYTES + 8:
        return flipped(chance, data)
    count = min(struct.unpack_from('>I', data, 12)[0], (len(data) - HEAD_BYTES) // 4)
    at, other = (HEAD_BYTES + 4 * chance.randrange(count or 1) for _ in range(2))
    word = int.from_bytes(data[at : at + 4], 'big')
    low, width = chance.choice([(0, 13), (13, 1), (14, 5), (19, 6), (25, 5), (30, 2), (0, 22), (5, 8)])
    field = chance.randrange(2**width) << low
    told = data[other : other + 4] if chance.random() < 0.2 else (word & ~((2**width - 1) << low) & 0xFFFFFFFF | field).to_bytes(4, 'big')
    return data[:at] + told + data[at + 4 :]


# ---- counts made right


def listed(lines, start, is_member):
    """How many lines behind `start` are members of its table."""
    end = start + 1
    while end < len(lines) and is_member(lines[end]):
        end += 1
    return end - start - 1


MEMBERS = {name.encode(): re.compile(row.encode()) for name, row in LISTS.items()}


def mended(data):
    """The text with the number of each count line that of the lines behind it, and its image in whole lines with its length."""
    lines = data.split(b'\n')
    for at, line in enumerate(lines):
        name = line.split(b' ')[0]
        if name in MEMBERS and at:
            lines[at] = name + b' %d' % listed(lines, at, MEMBERS[name].match)
    return with_image_mended(lines)


def with_image_mended(lines):
    start = next((at for at, line in enumerate(lines) if line.startswith(b'image ')), None)
    if start is None:
        return b'\n'.join(lines)
    count = listed(lines, start, re.compile(IMAGE_ROW.encode()).match)
    digits = b''.join(lines[start + 1 : start + 1 + count])
    return b'\n'.join([*lines[:start], b'image %d' % (len(digits) // 2), *cut_in_rows(digits), *lines[start + 1 + count :]])


# ---- which damages a format may have


ANYWHERE = [flipped, other_byte, cut_end, longer_end]
BY_LINE = [dropped_line, doubled_line, exchanged_lines, next_lines_exchanged, joined_lines, carriage_return]
BY_WORD = [other_number, other_number, lying_count, other_blank, other_case, exchanged_words, word_from_elsewhere, other_digit]
OF_TEXTS = [*ANYWHERE, *BY_LINE, *BY_WORD]
OF_SOURCES = [*OF_TEXTS, *[other_of_its_kind] * 20, *[one_line_more] * 10]
OF_IMAGES = [*ANYWHERE, other_field, other_field, other_members, other_members, *[other_instruction] * 4]
OF_RUNS = [other_members, *[other_instruction] * 6]
IN_FORM = [other_row, other_row, near_number, near_number, other_entry, other_digit, other_parameter, next_lines_exchanged]
