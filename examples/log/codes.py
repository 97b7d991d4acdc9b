"""What an instruction leaves in the condition codes and in Y (SPARC V8 manual, B.11 to B.13, B.18 and B.29)."""

WORDS, SIGN = 1 << 32, 1 << 31
UMUL, SMUL, WRITE_Y = 0x0A, 0x0B, 0x30
LOGICAL = {1: lambda x, y: x & y, 2: lambda x, y: x | y, 3: lambda x, y: x ^ y, 5: lambda x, y: x & ~y, 6: lambda x, y: x | ~y, 7: lambda x, y: x ^ ~y}
ADDS = {0: 0, 8: 1}
SUBTRACTS = {4: 0, 12: 1}
SETS_CODES = range(0x10, 0x20)


def is_arithmetic(word):
    """Whether a word of code is of the format of arithmetic."""
    return word >> 30 == 2


def kind_of(word):
    """Which instruction of its format a word of code is."""
    return word >> 19 & 63


def operands(word, register):
    """The two operands, given what tells a register's word by its number."""
    second = (word & 0xFFF) - (word & 0x1000) if word >> 13 & 1 else register(word & 31)
    return register(word >> 14 & 31), second % WORDS


def signed(word):
    """A word as a number with its sign."""
    return word - WORDS if word & SIGN else word


def codes_of(word, register, carry):
    """N, Z, V and C in a text after an instruction that sets them, or None of another one."""
    if not is_arithmetic(word) or kind_of(word) not in SETS_CODES:
        return None
    (x, y), low = operands(word, register), kind_of(word) & 15
    overflow = borrow = False
    if low in ADDS:
        total = x + y + carry * ADDS[low]
        overflow, borrow = bool(~(x ^ y) & (total ^ x) & SIGN), total >= WORDS
    elif low in SUBTRACTS:
        total = x - y - carry * SUBTRACTS[low]
        overflow, borrow = bool((x ^ y) & (total ^ x) & SIGN), total < 0
    else:
        total = LOGICAL[low](x, y)
    return ''.join('01'[bool(flag)] for flag in (total & SIGN, total % WORDS == 0, overflow, borrow))


def y_of(word, register):
    """Y after an instruction that writes it, or None of another one."""
    if not is_arithmetic(word) or kind_of(word) not in (UMUL, SMUL, WRITE_Y):
        return None
    x, y = operands(word, register)
    if kind_of(word) == WRITE_Y:
        return x ^ y
    return (x * y if kind_of(word) == UMUL else signed(x) * signed(y)) >> 32 & WORDS - 1
