"""The frames of a run, from its log in one pass: the state at each stamp, as the steps that lead there from the one before."""
import re
import sys
from dataclasses import dataclass, field
from pathlib import Path

import explain
import logs
import machine
from alewife import RAN, WORD, ProgramError, called, checkpoint_of, image_of
from saved import WORDS

COMPARED = 8
OF_CLAIM = '. A claim has turns on one memory and no events: audit --write log tells them, and schedule writes the trace of a run that takes them'


class ViewError(Exception):
    """Why there is no page, in a line."""


# ---- the program


@dataclass(frozen=True)
class Program:
    """The program, with the trace that it is asked about."""
    binary: str
    trace: bytes

    def call(self, *words):
        """The status of a call, what it wrote, and its line on standard error."""
        try:
            ran = called(self.binary, words, self.trace)
        except ProgramError as error:
            raise ViewError(str(error)) from error
        return ran.status, ran.out.decode(errors='replace'), ran.line()

    def save(self, *words):
        """The lines of a checkpoint: those of the trace up to the cut, and those of the state there."""
        status, text, why = self.call('save', *words)
        if status == 2:
            raise ViewError(f'{self.binary} has no command save ({why}): name another program')
        checkpoint = checkpoint_of(text)
        if status or not checkpoint:
            raise ViewError(f'refused: {why or f"status {status}, and what save wrote is no checkpoint"}')
        return checkpoint

    def route(self):
        """The load of each wire as [from, to, count], or None of a trace that has no end, which route refuses."""
        status, text, why = self.call('route')
        if status == 3 and why.endswith('not finished'):
            return None
        if status:
            raise ViewError(f'refused: route: {why or f"status {status}"}')
        return [[int(word) for word in line.split()] for line in text.split('\n')[5:-2]]

    def log(self):
        """The lines of the log of the run. Of a trace that has no end they are those of a run that goes on from it."""
        status, text, why = self.call('replay', '--write', 'log')
        if status == 3 and why.endswith('not finished'):
            status, saved, why = self.call('save')
            status, text, why = Program(self.binary, saved.encode()).call('resume', '--write', 'log')
        if status == 2:
            raise ViewError(f'{self.binary} writes no log ({why}): name another program')
        if status not in RAN:
            raise ViewError(f'refused: {why or f"status {status}"}')
        return text.split('\n')[:-1]


def read_input(path, wanted):
    """The bytes of a file or, where the path is -, of standard input, which begin as a trace or an image, as it is wanted."""
    try:
        data = sys.stdin.buffer.read() if path == '-' else Path(path).read_bytes()
    except OSError as fault:
        raise ViewError(f"can't read {path}: {fault.strerror}") from fault
    kind = explain.kind_of(data, '')
    if kind != wanted:
        raise ViewError(explain.of_kind(kind, explain.wanted(wanted)) + OF_CLAIM * (kind == 'claim'))
    return data


# ---- what a trace says


def start_of(image):
    """The machine of an image: its sizes, its data lines by number, and its Trap-Always lines."""
    read = image_of(image)
    words = {line: ' '.join(f'0x{body[at:at + WORD].hex()}' for at in range(0, len(body), WORD)) for line, body in read.data.items()}
    width, height, contexts, lines = read.sizes
    return {'mesh': [width, height], 'contexts': contexts, 'lines': lines, 'code': len(read.code) // WORD, 'bodies': words, 'always': read.always}


def stamps_of(run, first, last):
    """The stamps of the frames from one stamp to another: the start, which is stamp 0, and each stamp that an entry has."""
    stamps = [stamp for stamp in (0, *run.events) if first <= stamp and (last is None or stamp <= last)]
    if not stamps:
        raise ViewError(f'no entry has a stamp from {first} to {last}' if last is not None else f'no entry has a stamp from {first} on')
    return stamps


def shown(line, event, why, moment):
    """What a page has of an event: its line in the log but for the stamp and the statement, with words without leading zeros, the reason of a miss or
    an INV, and where there are moments the cycles in which it starts and finishes."""
    words = line.partition(' ')[2]
    if event.letter == 'I':
        behind = len(f'I {event.said["node"]} slot {event.said["slot"]} pc {event.said["pc"]} {event.said["statement"]}')
        words = f'I {event.said["node"]} {event.said["slot"]} {event.said["pc"]}{words[behind:]}'
    told = machine.DIGITS.sub(r'x\1', words) + (f'|{why}' if why else '')
    return f'{told}{"" if why else "|"}|{moment.start} {moment.finish}' if moment else told


@dataclass(frozen=True)
class Log:
    """The log of a run: its head, the lines of its events, where contexts stand at the end, and the moments of the events by their lines, if any."""
    head: logs.Head
    lines: list
    ends: list
    moments: dict = field(default_factory=dict)

    def events(self):
        """The events, one by one in order."""
        return map(event_of, self.lines)

    def at(self):
        """The lines of the events of each stamp."""
        found = {}
        for line in self.lines:
            found.setdefault(int(line.partition(' ')[0]), []).append(line)
        return found


def event_of(line):
    """The event of a line of a log."""
    try:
        return logs.event_of(line)
    except logs.LogError as fault:
        raise ViewError(f'the log is wrong: {fault}') from fault


def log_of(program, run, moments=()):
    """The log of a trace, with the moments of its entries, if any."""
    lines = program.log()
    try:
        head = logs.head_of(lines[:logs.HEAD_LINES])
        ends = list(map(logs.context_of, lines[logs.HEAD_LINES + head.events + 1:-2]))
    except logs.LogError as fault:
        raise ViewError(f'the log is wrong: {fault}') from fault
    events = lines[logs.HEAD_LINES:logs.HEAD_LINES + sum(map(len, run.events.values()))]
    return Log(head, events, ends, dict(zip(events, moments)))


# ---- frames


def chosen(stamps):
    """The stamps of the frames that are compared with what the program saves: the last one, and some between."""
    return {stamps[(len(stamps) - 1) * part // COMPARED] for part in range(1, COMPARED + 1)}


def compare(program, stamp, state):
    """Refuses a state that the program saves in another way."""
    saved = program.save('--at', str(stamp))[1]
    if state.text() != saved:
        different = next((pair for pair in zip(state.text(), saved) if pair[0] != pair[1]), ('more lines', 'fewer lines'))
        raise ViewError(f'the state at stamp {stamp} differs from what the program saves: {different[0]} in place of {different[1]}')


def frames(program, run, log, reasons, stamps, report):
    """The frames, each [stamp, events, steps from the state before], the first from no lines. Calls report with the count of those made."""
    state = machine.Machine(image_of(run.image), log.head.sets, program.save('--at', str(stamps[0]))[1])
    compared, lines = chosen(stamps), log.at()
    for place, stamp in enumerate(stamps):
        events = sorted(((event_of(line), line) for line in lines.get(stamp, ())), key=lambda pair: pair[0].number('node'))
        steps = list(state.begun()) if place == 0 else [step for event, _ in events for step in state.step(event)]
        if stamp in compared and place:
            compare(program, stamp, state)
        yield [stamp, [shown(line, event, reasons.get((stamp, event.said['node'])), log.moments.get(line)) for event, line in events], steps]
        report(place + 1)


def rebuilt(lines, frame):
    """The lines by key after a frame, as the page makes them: their words, or lists of words."""
    stamp, events, steps = frame
    for step in steps:
        key, sign, text = re.fullmatch('([^-=~+<]+)([-=~+<])(.*)', step).groups()
        if sign == '~':
            for change in text.split(';'):
                place, _, word = change.partition(' ')
                changed = machine.onward(lines[key]) if place == '>' else {int(place): machine.lengthened(word)}
                lines[key] = [changed.get(at, old) for at, old in enumerate(lines[key])]
        elif sign == '<':
            lines[key] = lines[key][1:]
        elif sign == '-':
            del lines[key]
        else:
            words = machine.words_of(key, text)
            lines[key] = lines.get(key, []) + [words] if sign == '+' else WORDS.findall(' '.join(words))
    for event in events:
        letter, node, other, *_ = event.split(' ')
        machine.tick(lines[f'n{other if letter == "D" else node}'], stamp, other if letter == 'I' else None)
    return lines
