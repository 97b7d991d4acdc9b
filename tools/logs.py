"""The log of a run: its lines, each taken apart by its form."""
import re
from dataclasses import dataclass

NUMBER, WORD, REGISTER, MODE, KIND = '[0-9]+', '0x[0-9a-f]{8}', '%[goli][0-7]', 'read|write', '[A-Z]{3,6}'
NODES = '(?:-|[0-9]+(?:,[0-9]+)*)'
STATEMENT = r'nop|-|[a-z.]\S* \S+'
ENTRY = f'(?:RO|RW|RT|WT) (?:normal|progress|trap-write|trap-always) hw {NODES} sw {NODES} acks {NUMBER}'
CHANGE = f' before (?P<before>{ENTRY}) after (?P<after>{ENTRY})'
DOES = f'ready|wait {NUMBER}|hold {NUMBER}|halted|trapped 0x[0-9a-f]{{2}}'
HEAD = (f'ALEWIFE LOG 1\nmesh ({NUMBER}) ({NUMBER}) contexts ({NUMBER}) lines ({NUMBER})\n'
        f'params pointers ({NUMBER}) sets ({NUMBER}) limit ({NUMBER})\nevents ({NUMBER})\n')
HEAD_LINES = 4

DONE = (f'pc (?P<pc>{WORD}) (?P<statement>{STATEMENT})'
        f'(?: sets (?P<register>{REGISTER}) (?P<set>{WORD}))?'
        '(?: codes (?P<codes>[01]{4}))?'
        f'(?: y (?P<y>{WORD}))?'
        f'(?: reads (?P<read_at>{WORD}) (?P<read_bytes>[124]) (?P<read>{WORD}))?'
        f'(?: writes (?P<written_at>{WORD}) (?P<written_bytes>[124]) (?P<written>{WORD}))?'
        f'(?: taken (?P<taken>{WORD})| (?P<annuls>annuls))?'
        f'(?: prints (?P<prints>{WORD})| (?P<halts>halts)| traps (?P<traps>0x[0-9a-f]{{2}})'
        f'| misses (?P<misses>{NUMBER}) (?P<mode>{MODE}) (?P<how>opens|waits))?'
        f'(?: ends-hold (?P<ends>{NUMBER}))?')
TURN = f'(?P<node>{NUMBER}) slot (?P<slot>[0-3]) {DONE}'
CLAIMED = re.compile(f'({NUMBER}) context (?P<context>{NUMBER}) {DONE}')
DELIVERY = (f'(?P<sender>{NUMBER}) (?P<node>{NUMBER}) (?P<kind>{KIND}) (?P<line>{NUMBER})'
            f'(?: (?P<traps>traps)|{CHANGE}|(?P<wakes>(?: wakes [0-3])*)(?: holds (?P<holds>[0-3]))?'
            f'(?: replaces (?P<replaced>{NUMBER}) (?P<replaced_mode>{MODE}))? copy (?P<copy>none|{MODE}) (?P<copy_after>none|{MODE}))')
HANDLING = f'(?P<node>{NUMBER}) (?P<kind>{KIND}) (?P<line>{NUMBER}) (?P<sender>{NUMBER}){CHANGE}(?P<spill> spill)?'
EVICTION = f'(?P<node>{NUMBER}) (?P<set>{NUMBER}) (?P<line>{NUMBER}) (?P<mode>{MODE})'
SENDS = f'(?P<sends>(?: sends {KIND} {NUMBER} {NUMBER})*)'
FORMS = {letter: re.compile(f'({NUMBER}) {letter} {form}{SENDS}')
         for letter, form in (('I', TURN), ('D', DELIVERY), ('H', HANDLING), ('E', EVICTION))}
LETTER = re.compile(f'{NUMBER} ([IDHE]) ')
CONTEXT = re.compile(f'({NUMBER}) ({DOES}) pc ({WORD}) ({STATEMENT})')


class LogError(Exception):
    """A line that is none of a log, in a line."""


@dataclass(frozen=True)
class Head:
    """What a log begins with: the sizes, the parameters, and how many events there are."""
    width: int
    height: int
    contexts: int
    lines: int
    pointers: int
    sets: int
    limit: int
    events: int

    def nodes(self):
        """How many nodes there are."""
        return self.width * self.height


@dataclass(frozen=True)
class Event:
    """An event: its stamp, its letter, the members of its line by name, and what it sent as (kind, line, node)."""
    stamp: int
    letter: str
    said: dict
    sends: tuple

    def number(self, name):
        """A member that is a number, or a word; None where the line hasn't got it."""
        text = self.said.get(name)
        return None if text is None else int(text, 0)


@dataclass(frozen=True)
class Context:
    """Where a context stands at the end."""
    number: int
    does: str
    pc: int
    statement: str


def head_of(lines):
    """The head, of the first lines."""
    match = re.fullmatch(HEAD, ''.join(f'{line}\n' for line in lines))
    if not match:
        raise LogError('this is no log: `alewife run --write log` writes one')
    return Head(*map(int, match.groups()))


def event_of(line):
    """The event of a line."""
    letter = LETTER.match(line)
    match = letter and FORMS[letter[1]].fullmatch(line)
    if not match:
        raise LogError(f'no event has this line: {line}' if line else 'an event is missing: the log is cut')
    words = match['sends'].split()
    sends = tuple((kind, int(about), int(to)) for kind, about, to in zip(words[1::4], words[2::4], words[3::4]))
    return Event(int(match[1]), letter[1], match.groupdict(), sends)


def claimed_of(line):
    """The turn of a line of a claim's log, as an event whose stamp is the turn's number."""
    match = CLAIMED.fullmatch(line)
    if not match:
        raise LogError(f'no turn has this line: {line}')
    return Event(int(match[1]), 'I', match.groupdict(), ())


def context_of(line):
    """The context of a line at the end."""
    match = CONTEXT.fullmatch(line)
    if not match:
        raise LogError(f'no context has this line: {line}')
    return Context(int(match[1]), match[2], int(match[3], 16), match[4])


def parts_of(lines):
    """The parts of a log, from its lines without their ends, one by one: the head, each event, each context, and how it ended, as a text."""
    lines = iter(lines)
    head = head_of([next(lines, '') for _ in range(HEAD_LINES)])
    yield head
    for _ in range(head.events):
        yield event_of(next(lines, ''))
    count = head.nodes() * head.contexts
    if next(lines, '') != f'contexts {count}':
        raise LogError(f'behind the events there is no line `contexts {count}`')
    for _ in range(count):
        yield context_of(next(lines, ''))
    ended = next(lines, '')
    if not ended.startswith('ended ') or next(lines, '') != 'end' or next(lines, None) is not None:
        raise LogError('the last lines say not how the run ended')
    yield ended.removeprefix('ended ')
