"""Drawn programs as images, and what a run comes to, as an end that a search lists."""
import json
import re

import draw
import outcomes
from alewife import RAN, ProgramError, called

TRAPPED = re.compile(r'trapped node (\d+) slot (\d+) pc 0x([0-9a-f]{8}) tt 0x([0-9a-f]{2})')


def drawn():
    """The drawn programs by their names, without an end."""
    number = 0
    while True:
        yield f'number {number}', draw.source(number)
        number += 1


def assembled(binary, name, source):
    """The image of a source."""
    made = called(binary, ['asm'], source.encode())
    if made.status:
        raise ProgramError(f'{binary}: asm of {name}: status {made.status}, {made.line()}')
    return made.out


def end_of(report):
    """What a run comes to, as an outcome or a trap without its turns; None of one that came to the limit."""
    trapped = TRAPPED.fullmatch(report['ended'])
    if trapped:
        node, slot = int(trapped[1]), int(trapped[2])
        return outcomes.Trap(node * report['contexts'] + slot, int(trapped[3], 16), int(trapped[4], 16))
    if report['ended'] != 'halted':
        return None
    by_context = sorted(report['prints'], key=lambda pair: pair[0])
    return outcomes.Outcome(tuple(map(tuple, by_context)), tuple(map(tuple, report['memory'])))


def reported(binary, words, data):
    """The report of a run, as the words of a call make it."""
    answer = called(binary, [*words, '--write', 'json'], data)
    if answer.status not in RAN:
        raise ProgramError(f'{binary}: {" ".join(words)}: status {answer.status}, {answer.line()}')
    return json.loads(answer.out)
