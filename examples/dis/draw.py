"""Draws words of code, and images."""
import struct

from alewife import FIRST_VERSION_SIDE, MOST_CONTEXTS, MOST_LINES, MOST_SIDE, WORD, Image, Sizes

ARITHMETIC = (*range(0x00, 0x09), 0x0A, 0x0B, 0x0C, *range(0x10, 0x19), 0x1C)
SHIFTS, ACCESSES = (0x25, 0x26, 0x27), (0x00, 0x01, 0x02, 0x04, 0x05, 0x06, 0x09, 0x0A, 0x0D, 0x0F)
READ_Y, WRITE_Y, JMPL, TRAP = 0x28, 0x30, 0x38, 0x3A
BRANCH, SETHI = 2, 4
EDGES = (0, 1, 2, 0xFFF, 0x1000, 0x1FFF)


def number(draw, bits):
    """A number of so many bits, now and then a small one or one of a bound."""
    return draw.choice(EDGES) & (1 << bits) - 1 if draw.random() < 0.2 else draw.getrandbits(bits)


def register(draw):
    """A register, often %g0, since statements of it are short."""
    return 0 if draw.random() < 0.15 else draw.getrandbits(5)


def format_3(draw, op, op3, rd, width, rs1=None):
    """A word of format 3: a register or a number of a width as its operand."""
    word = op << 30 | rd << 25 | op3 << 19 | (register(draw) if rs1 is None else rs1) << 14
    return word | register(draw) if draw.random() < 0.5 else word | 1 << 13 | number(draw, width)


def instruction(draw):
    """A word of the instruction table, each row as likely."""
    rows = (
        lambda: 1 << 30 | number(draw, 30),
        lambda: register(draw) << 25 | SETHI << 22 | number(draw, 22),
        lambda: draw.getrandbits(5) << 25 | BRANCH << 22 | number(draw, 22),
        lambda: format_3(draw, 2, draw.choice(ARITHMETIC), register(draw), 13),
        lambda: format_3(draw, 2, draw.choice(SHIFTS), register(draw), 5),
        lambda: 2 << 30 | register(draw) << 25 | READ_Y << 19,
        lambda: format_3(draw, 2, WRITE_Y, 0, 13),
        lambda: format_3(draw, 2, JMPL, register(draw), 13),
        lambda: format_3(draw, 2, TRAP, draw.getrandbits(4), 7),
        lambda: format_3(draw, 3, draw.choice(ACCESSES), register(draw), 13),
    )
    return draw.choice(rows)()


def image(draw, words):
    """An image of some drawn words: instructions, or anything, with drawn sizes, starts, Trap-Always lines and data."""
    sides = [draw.randint(1, draw.choice((2, 4, FIRST_VERSION_SIDE, MOST_SIDE))) for _ in range(2)]
    sizes = Sizes(*sides, draw.randint(1, MOST_CONTEXTS), draw.choice((1, 2, 3, 8, MOST_LINES)))
    nodes, kept = sides[0] * sides[1], draw.random()
    code = b''.join(struct.pack('>I', instruction(draw) if draw.random() < kept else draw.getrandbits(32)) for _ in range(words))
    slots = sorted(draw.sample(range(nodes * sizes.contexts), draw.randint(1, min(9, nodes * sizes.contexts))))
    starts = tuple((slot // sizes.contexts, slot % sizes.contexts, WORD * draw.randrange(words)) for slot in slots)
    lines = nodes * sizes.lines
    chosen = draw.sample(range(lines), min(lines, draw.randint(0, 6)))
    bodies = {line: struct.pack('>4I', *(draw.choice((0, 1, draw.getrandbits(32))) for _ in range(4))) for line in chosen}
    always = tuple(sorted(draw.sample(range(lines), min(lines, draw.randint(0, 4)))))
    return Image(sizes, code, {line: body for line, body in bodies.items() if any(body)}, starts, always).packed()
