"""The code of a linked program by its functions: where each word stands in the sources, and which words are of a function."""
import re
import tempfile

import cross
from alewife import WORD

ASKED_AT_ONCE = 4096
FUNCTION = re.compile(r'\(([^()]+)\)')


def code_of(elf):
    """The bytes of the code of a linked program."""
    with tempfile.TemporaryDirectory() as folder:
        return cross.section(elf, '.text', folder)


def places_of(elf, count):
    """The place of each of so many words of code, by its address."""
    addresses = [f'0x{WORD * at:08x}' for at in range(count)]
    parts = (addresses[at:at + ASKED_AT_ONCE] for at in range(0, count, ASKED_AT_ONCE))
    return {int(address, 16): place for part in parts for address, place in cross.places_of(elf, part).items()}


def addresses_of(elf, names):
    """The addresses of code of some functions: their own, and that of calls which are inlined. Refuses a name of which there is no code."""
    found = {address: set(FUNCTION.findall(place)) for address, place in places_of(elf, len(code_of(elf)) // WORD).items()}
    if missing := set(names) - set().union(*found.values()):
        raise cross.BuildError(f'{elf} has no code of {min(missing)}')
    return frozenset(address for address, functions in found.items() if functions & set(names))
