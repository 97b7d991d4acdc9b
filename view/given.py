"""The log of a run that a call names: as it stands in a file or on standard input, or that of a trace, which the program writes."""
import subprocess
import sys
import tempfile
from dataclasses import dataclass

import explain
import progress
from alewife import RAN, image_of, no_program, run_of
from frames import OF_CLAIM, Program, ViewError
from places import words_of

TRACE, CLAIM = 'ALEWIFE TRACE 1', 'ALEWIFE CLAIM 1'
PIPES = {'stdin': subprocess.PIPE, 'stderr': subprocess.PIPE}


@dataclass(frozen=True)
class Given:
    """The lines of a log, one by one; how many events of them are the run's, or None where it has an end; and the program with the trace, or None of a log."""
    lines: object
    events: object = None
    program: object = None

    def told(self, head):
        """How many events the run has."""
        return head.events if self.events is None else self.events


def opened(path):
    """The lines of a file or of standard input, without their ends."""
    try:
        with sys.stdin.buffer if path == '-' else open(path, 'rb') as source:
            yield from lines_in(source)
    except OSError as fault:
        raise ViewError(f"can't read {path}: {fault.strerror}") from fault


def lines_in(source):
    """The lines of a file, without their ends."""
    return (line.decode(errors='replace').rstrip('\n') for line in source)


def kept(program, *words):
    """The status of a call, what it wrote, as a file without a name, and its line on standard error."""
    out = tempfile.TemporaryFile()
    try:
        process = subprocess.Popen([program.binary, *words], stdout=out, **PIPES)
    except OSError as fault:
        raise ViewError(str(no_program(program.binary, fault.strerror))) from fault
    with process, progress.of_call(process, words[0]):
        said = process.communicate(program.trace)[1]
    out.seek(0)
    return process.returncode, out, said.decode(errors='replace').strip()


def written(program, *words):
    """The lines of a text that the program writes, and why there is none, or nothing."""
    status, out, why = kept(program, *words)
    if status == 2:
        raise ViewError(f'{program.binary} takes no {" ".join(words)} ({why}): name another program')
    return lines_in(out), why if status in RAN else why or f'status {status}'


def logged(trace, binary, places):
    """The log of the lines of a trace. Of one that isn't finished it is that of a run which goes on from there."""
    program, run, count = Program(str(binary), ''.join(f'{line}\n' for line in trace).encode()), run_of(trace[1:-1]), None
    lines, why = written(program, 'replay', '--write', 'log')
    if why.endswith('not finished'):
        saved = program.call('save')[1].encode()
        lines, why = written(Program(program.binary, saved), 'resume', '--write', 'log')
        count = sum(map(len, run.events.values()))
    if why:
        raise ViewError(f'refused: {why}')
    if places.words not in (None, words_of(image_of(run.image).code)):
        raise ViewError("the source's code isn't that of this trace")
    return Given(lines, count, program)


def log_of(path, binary, places):
    """The log of a file or of standard input. It comes line by line."""
    lines = opened(path)
    first = next(lines, '')
    if first == TRACE:
        return logged([first, *lines], binary, places)
    if first == CLAIM:
        raise ViewError(explain.of_kind('claim', explain.wanted('trace')) + OF_CLAIM)
    return Given(line for part in ([first], lines) for line in part)
