"""The text of `alewife outcomes`, read; and the claim of the turns that lead to one of its ends, and the trace of a run that takes them."""
import re
from dataclasses import dataclass, replace

import progress
from alewife import RAN, ProgramError, called, image_of, image_rows, options_of

HEAD = re.compile(r'ALEWIFE OUTCOMES 1\nmesh \d+ \d+ contexts \d+ lines \d+\n(?:places (\d+)\n)?search (complete|stopped)\noutcomes (\d+)\n')
OUTCOME = re.compile(r'outcome (\d+) prints (\d+) memory (\d+)(?: runs (\d+))?')
TRAP = re.compile(r'trap (\d+) context (\d+) pc 0x([0-9a-f]{8}) tt 0x([0-9a-f]{2})(?: runs (\d+))?')
STUCK = re.compile(r'stuck (no|yes|unknown)(?: runs (\d+))?')
VERDICT = re.compile(r'differs (turn|print-count|print-context|print|memory)(?: (\w+))? claimed 0x([0-9a-f]{8}) real 0x([0-9a-f]{8})\n')
MOST_ASKED = 20000
# The places that the program keeps where no word says how many, and those that a stage of a search keeps.
MOST, STAGES = '1000000', (10_000, 100_000, 1_000_000)
# The places that a search for a first trap begins with, and how many times as many each next one keeps.
FIRST, TIMES = 1000, 4


class TextError(Exception):
    """Why a text isn't that of outcomes, or a claim can't be made of it."""


@dataclass(frozen=True)
class Outcome:
    """How runs end with all contexts halted: the printed words, as (context, word) by context; the words of memory that aren't 0, as (address, word);
    and turns that lead there, as (context, count), where the program tells them."""
    prints: tuple
    memory: tuple
    runs: tuple = ()


@dataclass(frozen=True)
class Trap:
    """How runs end with a trap: the context, its PC, the trap type; and turns that lead there, of which the last is the one that traps."""
    context: int
    pc: int
    tt: int
    runs: tuple = ()


@dataclass(frozen=True)
class Found:
    """What a search found. `stuck` is no, yes or unknown, and `lost` the turns that lead to a place from which no end can be reached."""
    places: int | None
    is_complete: bool
    outcomes: tuple
    traps: tuple
    stuck: str
    lost: tuple = ()

    def ends(self):
        """The ends alone, without places and turns."""
        bare = (tuple(replace(end, runs=()) for end in ends) for ends in (self.outcomes, self.traps))
        return Found(None, self.is_complete, *bare, self.stuck)

    def status(self):
        """The status that the program ends with."""
        return 4 if self.traps else 0 if self.is_complete and self.stuck == 'no' else 5


# ---- reading


class Lines:
    """The lines of a text, taken one after the other."""

    def __init__(self, text):
        self.lines, self.at = text.split('\n'), 0

    def take(self, form):
        """The parts of the next line, which has to be of a form."""
        match = re.fullmatch(form, self.lines[self.at] if self.at < len(self.lines) else '')
        if not match:
            raise TextError(f'line {self.at + 1} of the outcomes is none that was awaited')
        self.at += 1
        return match.groups()

    def pairs(self, count, first, second):
        """So many lines of two numbers, in decimal or in hexadecimal as their forms are."""
        rows = (self.take(f'({first}) ({second})') for _ in range(int(count or 0)))
        return tuple((int(one, 0), int(other, 0)) for one, other in rows)


NUMBER, WORD = r'\d+', '0x[0-9a-f]{8}'


def read_outcome(lines):
    """An outcome, at its head."""
    _, prints, memory, runs = lines.take(OUTCOME)
    return Outcome(lines.pairs(prints, NUMBER, WORD), lines.pairs(memory, WORD, WORD), lines.pairs(runs, NUMBER, NUMBER))


def read_trap(lines):
    """A trap, at its head."""
    _, context, pc, tt, runs = lines.take(TRAP)
    return Trap(int(context), int(pc, 16), int(tt, 16), lines.pairs(runs, NUMBER, NUMBER))


def found_in(text):
    """What a text of outcomes says."""
    head = HEAD.match(text)
    if not head:
        raise TextError('this is no text of outcomes')
    lines = Lines(text[head.end():])
    outcomes = tuple(read_outcome(lines) for _ in range(int(head[3])))
    traps = tuple(read_trap(lines) for _ in range(int(lines.take(r'traps (\d+)')[0])))
    stuck, runs = lines.take(STUCK)
    lost = lines.pairs(runs, NUMBER, NUMBER)
    lines.take('end')
    if lines.lines[lines.at:] != ['']:
        raise TextError('something stands behind the end of the outcomes')
    return Found(head[1] and int(head[1]), head[2] == 'complete', outcomes, traps, stuck, lost)


def stages(words):
    """The numbers of places that a search keeps at most before the one that the words say, each ten times the one before."""
    most = words[words.index('--most') + 1] if '--most' in words else MOST
    return [stage for stage in STAGES if most.isdecimal() and stage < int(most)]


def growing(words):
    """The numbers of places that a search for a first trap keeps at most before the one that the words say: all together a third of that one at most."""
    most, bound = words[words.index('--most') + 1], FIRST
    while most.isdecimal() and bound * TIMES <= int(most) <= most_taken():
        yield bound
        bound *= TIMES


def most_taken():
    """The greatest number of places that the program takes."""
    return options_of('outcomes')['most']['last']


def searched(binary, image, *words):
    """What the program finds of an image's bytes, with the words of the call. Where a terminal looks on it searches in stages, till one is complete."""
    return searched_by(binary, image, stages(words) if progress.is_seen() else (), words, lambda found: found.is_complete)


def searched_to_trap(binary, image, *words):
    """What the program finds of an image's bytes up to the first stage that lists a trap, or else in all, with as many places as the program takes where
    the words don't say how many."""
    words = words if '--most' in words else (*words, '--most', str(most_taken()))
    return searched_by(binary, image, growing(words), words, lambda found: found.is_complete or found.traps)


def searched_by(binary, image, bounds, words, is_enough):
    """What the first is enough of searches with these numbers of places, and then with the words. What each found is shown during the next."""
    said = 'searching'
    for bound in bounds:
        with progress.shown_as(lambda seconds, said=said: f'{said} up to {bound:,} places, {seconds:.0f} s'):
            found = searched_once(binary, image, '--most', str(bound))
        if is_enough(found):
            return found
        said = f'{len(found.outcomes)} outcomes, {len(found.traps)} traps so far;'
    with progress.shown_as(lambda seconds: f'{said} up to the last place, {seconds:.0f} s'):
        return searched_once(binary, image, *words)


def searched_once(binary, image, *words):
    """What one search finds."""
    ran = called(binary, ['outcomes', *words], image)
    if ran.status not in RAN:
        raise ProgramError(f'{binary}: outcomes: status {ran.status}, {ran.line()}')
    found = found_in(ran.out.decode())
    if ran.status != found.status():
        raise TextError(f'the status is {ran.status}, and what was found has {found.status()}')
    return found


# ---- claims


def claim(image, runs, prints, memory):
    """The text of a claim of an image's bytes."""
    rows = (('runs', runs, '{} {}'), ('prints', prints, '{} 0x{:08x}'), ('memory', memory, '0x{:08x} 0x{:08x}'))
    lists = [line for name, pairs, form in rows for line in (f'{name} {len(pairs)}', *(form.format(*pair) for pair in pairs))]
    return '\n'.join(['ALEWIFE CLAIM 1', f'image {len(image)}', *image_rows(image), *lists, 'end', ''])


def turns_in(text):
    """The turns of a claim, as (context, count)."""
    lines = Lines(text[text.index('\nruns ') + 1:])
    return lines.pairs(lines.take(r'runs (\d+)')[0], NUMBER, NUMBER)


def verdict_of(binary, text):
    """What differs in a claim, as the place's name, its number, and what is real there; None where it is sound."""
    ran = called(binary, ['audit'], text.encode())
    if ran.out == b'sound\n':
        return None
    verdict = VERDICT.fullmatch(ran.out.decode())
    if not verdict:
        raise ProgramError(f'{binary}: audit: status {ran.status}, {ran.line()}')
    name, place, _, real = verdict.groups()
    return name, int(place or '0', 0), int(real, 16)


def ordered(binary, image, outcome):
    """The claim of an outcome. Its prints stand by context, and a claim has them in the order of the turns: audit tells, print by print, whose is next."""
    prints, settled = list(outcome.prints), 0
    while True:
        text = claim(image, outcome.runs, prints, outcome.memory)
        differs = verdict_of(binary, text)
        if differs is None:
            return text
        name, at, context = differs
        later = [k for k in range(at, len(prints)) if prints[k][0] == context]
        if name != 'print-context' or at < settled or not later:
            raise TextError(f'these turns lead elsewhere: audit says {name} {at}, real 0x{context:08x}')
        prints.insert(at, prints.pop(later[0]))
        settled = at + 1


def mended(prints, memory, name, at, real):
    """Prints and memory with what is real at a place in place of what was claimed there."""
    if name == 'print-count':
        return [*prints[:real], *[(0, 0)] * (real - len(prints))], memory
    if name == 'print-context':
        return [*prints[:at], (real, prints[at][1]), *prints[at + 1:]], memory
    if name == 'print':
        return [*prints[:at], (prints[at][0], real), *prints[at + 1:]], memory
    return prints, {address: word for address, word in sorted({**memory, at: real}.items()) if word}


def completed(binary, image, runs):
    """The claim of turns alone, with what they print and leave in memory as audit says it, one place a call."""
    prints, memory = [], {}
    for _ in range(MOST_ASKED):
        text = claim(image, runs, prints, tuple(memory.items()))
        differs = verdict_of(binary, text)
        if differs and differs[0] == 'turn':
            raise TextError(f'turn {differs[1]} of these is one of a context that can take none')
        if differs is None:
            return text
        prints, memory = mended(prints, memory, *differs)
    raise TextError(f'audit says after {MOST_ASKED} calls that something differs still')


# ---- runs


# Why turns are no run that schedule makes, by how its line ends.
NO_RUN = {'not current': '; a slot of a node parts with its processor only by halting or waiting, and behind a turn of schedule none waits',
          'not finished': '; behind these turns there is no end', 'above limit': '; with a greater --limit schedule may take their claim'}


def scheduled(binary, image, runs, *words):
    """The trace of the run of an image's bytes in which the contexts take these turns, with the words of the call. It doesn't depend on prints and memory."""
    ran = called(binary, ['schedule', *words], claim(image, runs, (), ()).encode())
    if ran.status in RAN:
        return ran.out.decode()
    line = ran.line().partition('\n')[0].removeprefix('alewife: ')
    raise TextError(f'schedule: {line}' + next((why for end, why in NO_RUN.items() if line.endswith(end)), ''))


# ---- whether turns lead to what is told of them


HALTED, TRAPPED = 1, 2
ROUNDS, TURNS = 3, 100


def count_of(runs):
    """How many turns there are."""
    return sum(count for _, count in runs)


def contexts_of(image):
    """The contexts of an image's bytes."""
    sizes = image_of(image).sizes
    return range(sizes.width * sizes.height * sizes.contexts)


def with_turns(runs, context, count):
    """The turns with so many more of a context."""
    last, before = runs[-1] if runs else (None, 0)
    if count == 0:
        return runs
    return (*runs[:-1], (context, before + count)) if last == context else (*runs, (context, count))


def further(binary, image, runs, context, count):
    """The turns with so many more of a context, or as many as it can take, and why there are no more: HALTED, TRAPPED or None."""
    more = with_turns(runs, context, count)
    differs = verdict_of(binary, claim(image, more, (), ()))
    if not differs or differs[0] != 'turn':
        return more, None
    if differs[1] < count_of(runs):
        raise TextError(f'turn {differs[1]} of these is one of a context that can take none')
    return with_turns(runs, context, differs[1] - count_of(runs)), differs[2]


def fault_of_outcome(binary, image, outcome):
    """Why the turns of an outcome don't lead to it, or None: the claim is sound, and all contexts have halted."""
    ordered(binary, image, outcome)
    going = [context for context in contexts_of(image) if further(binary, image, outcome.runs, context, 1)[1] != HALTED]
    return f'behind its turns context {going[0]} has not halted' if going else None


def fault_of_trap(binary, image, trap):
    """Why the turns of a trap don't lead to it, or None: they can be taken, the last is the context's, and it has trapped."""
    completed(binary, image, trap.runs)
    if not trap.runs or trap.runs[-1][0] != trap.context:
        return "its last turn isn't the context's"
    before = with_turns(trap.runs[:-1], trap.context, trap.runs[-1][1] - 1)
    last = further(binary, image, before, trap.context, 2)
    return None if last == (trap.runs, TRAPPED) else 'its last turn is not the one that traps'


def fault_of_lost(binary, image, runs):
    """Why turns can't be taken, or that an end comes behind them, or None: the contexts go on in turn for some rounds, which is no proof that none comes."""
    completed(binary, image, runs)
    going = set(contexts_of(image))
    for context in [*contexts_of(image)] * ROUNDS:
        if context in going:
            runs, reason = further(binary, image, runs, context, TURNS)
            if reason == TRAPPED:
                return f'context {context} can trap'
            going -= {context} if reason == HALTED else set()
    return None if going else 'all contexts can halt'


def faults_of(binary, image, found):
    """What is wrong with the turns that a program tells of an image's ends, by the audit of a program, which may be another one."""
    ends = [(f'outcome {at}', fault_of_outcome, outcome) for at, outcome in enumerate(found.outcomes)]
    ends += [(f'trap {at}', fault_of_trap, trap) for at, trap in enumerate(found.traps)]
    ends += [('the place that is stuck', fault_of_lost, found.lost)] if found.stuck == 'yes' else []
    for name, of, end in ends:
        try:
            fault = of(binary, image, end)
        except TextError as error:
            fault = error
        if fault:
            yield f'{name}: {fault}'
