"""Where the code of a run is in its source, and what lies in shared data, by the linked program or by a listing, for what doesn't have the code itself."""
import shutil
import struct
from pathlib import Path

import cross
import functions
import statements
from frames import ViewError


class Places:
    """Where code is in the source, by address, and what lies in shared data. The words of the code are None where they aren't known."""
    words, places, symbols, end, stacks = None, {}, (), 0, statements.Stacks()

    def place(self, address):
        """The place of an address of code behind two blanks, or nothing."""
        return f'  {self.places[address]}' if address in self.places else ''

    def name(self, address):
        """What lies at an address of shared data, as ' (count+4)', or nothing."""
        return statements.Linked.name(self, address)


class Linked(Places):
    """Those of a linked program."""

    def __init__(self, elf):
        for tool in ('addr2line', 'nm', 'objcopy'):
            if not shutil.which(f'sparc64-linux-gnu-{tool}'):
                raise ViewError(f'there is no sparc64-linux-gnu-{tool}; on Debian: apt-get install binutils-sparc64-linux-gnu')
        if not Path(elf).is_file():
            raise ViewError(f"can't read {elf}: it is no file")
        self.words = words_of(functions.code_of(elf))
        placed = functions.places_of(elf, len(self.words))
        asserted = {address: f': {text}' for address, (_, text) in cross.assertions_of(elf).items()}
        self.places = {address: f'{place}{asserted.get(address, "")}' for address, place in placed.items()}
        self.symbols, self.end = statements.variables_of(elf)
        self.stacks = statements.stacks_of(elf)


class Listed(Places):
    """Those of a source in assembly, by its listing."""

    def __init__(self, listing, source):
        rows = [statements.LISTED.fullmatch(row) for row in statements.read_text(listing).splitlines()]
        if not rows or not all(rows):
            raise ViewError(f'{listing} is no listing: alewife asm --write listing writes one')
        if max(int(row[3]) for row in rows) > len(statements.read_text(source).splitlines()):
            raise ViewError(f'{source} has fewer lines than its listing names')
        self.words = [int(row[2], 16) for row in rows]
        self.places = {int(row[1], 16): f'{Path(source).name}:{row[3]}' for row in rows}


def words_of(code):
    """The words of bytes of code."""
    return [word for word, in struct.iter_unpack('>I', code)]


# ---- by the words of a call


def name_sources(words, arguments):
    """The words of a call, with those that name where places come from."""
    words.add_argument('--elf', help='the linked program, for lines of the source and names')
    words.add_argument('--listing', help='the listing of a source in assembly (asm --write listing)')
    words.add_argument('--source', help='that source')
    said = words.parse_args(arguments)
    if bool(said.listing) != bool(said.source) or (said.elf and said.listing):
        words.error('places come by --elf, or by --listing and --source together')
    return said


def places_of(words):
    """The places that the words of a call name."""
    return Linked(words.elf) if words.elf else Listed(words.listing, words.source) if words.listing else Places()
