"""Which line of shared data a word of a call means: a number, an address, or the name of a variable, as count or count+16; and which stamp."""
import re

from alewife import LINE_BYTES, SHARED
from frames import ViewError

NAMED = re.compile(r'&?([A-Za-z_.$][\w.$]*)(?:\+(\d+|0x[0-9a-fA-F]+))?')
WHICH = re.compile(r'(first|last) (\w+)')
KINDS = ('RREQ', 'WREQ', 'REPM', 'UPDATE', 'ACKC', 'RDATA', 'WDATA', 'INV', 'BUSY')
HAPPENS = (*KINDS, 'miss', 'handler', 'print')


def line_of(text, symbols):
    """The number of a line, given the variables of a linked program as (address, name)."""
    if text.isdecimal():
        return int(text)
    named = NAMED.fullmatch(text)
    if named:
        address = address_of(named, text, symbols)
    elif re.fullmatch('0x[0-9a-fA-F]{1,8}', text):
        address = int(text, 16)
    else:
        raise ViewError(f'{text} is no line: a number, an address as 0x40000020, or a name, as count or count+16')
    if address < SHARED:
        raise ViewError(f'0x{address:08x} is no address of shared data, which begins at 0x{SHARED:08x}')
    return (address - SHARED) // LINE_BYTES


def address_of(named, text, symbols):
    """The address of a name, with what is added to it."""
    known = {name: address for address, name in symbols}
    if not known:
        raise ViewError(f'{text} is a name: --elf says where it lies')
    if named[1] not in known:
        raise ViewError(f'there is no {named[1]} in the linked program; there are {", ".join(known)}')
    return known[named[1]] + int(named[2] or '0', 0)


def is_of(event, kind, line):
    """Whether an event is of a kind: it sends a message of it, or is a miss or an action of the handler, of a line or of any; or it prints."""
    if kind in KINDS:
        return any(sent == kind and line in (None, number) for sent, number, _ in event.sends)
    if kind == 'print':
        return event.letter == 'I' and event.said['prints'] is not None
    about = event.number('line') if event.letter == 'H' and kind == 'handler' else event.number('misses') if event.letter == 'I' and kind == 'miss' else None
    return about is not None and line in (None, about)


def stamp_of(text, events, line):
    """The stamp of the first or last event of a kind, as 'first INV', of a line or of any."""
    which, kind = WHICH.fullmatch(text).groups()
    stamps = [event.stamp for event in events if is_of(event, kind, line)]
    if not stamps:
        raise ViewError(f'there is no {kind}{"" if line is None or kind == "print" else f" of line {line}"} in this run')
    return stamps[0] if which == 'first' else stamps[-1]
