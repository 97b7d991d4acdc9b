"""Turns of a run that do no work, as those of a spin: the user names the functions whose turns these are."""
import json
from dataclasses import dataclass

from alewife import image_of
from functions import addresses_of, code_of

# What a row has of them: the functions, how many turns and misses are of these, and of a run by time the cycles of all other turns.
NAMES = ('idle', 'idle_turns', 'idle_misses')
TIMED_NAMES = (*NAMES, 'work_cycles')


@dataclass(frozen=True)
class Idle:
    """The functions whose turns are idle, and the addresses of their code."""
    names: tuple
    addresses: frozenset

    def told(self):
        """The functions as a cell has them."""
        return '+'.join(self.names)

    def counts(self, profile):
        """How many turns and how many misses of the text of a profile are idle."""
        rows = [row for row in json.loads(profile)['code'] if row['address'] in self.addresses]
        return sum(row['turns'] for row in rows), sum(row['misses'] for row in rows)


def idle_of(elf, names, data=None):
    """The idle functions of a linked program, which has to be that of the image where one is given; None where it isn't."""
    if data is not None and image_of(data).code != code_of(elf):
        return None
    return Idle(tuple(sorted(set(names))), addresses_of(elf, names))
