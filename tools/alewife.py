"""What the scripts share: the machine's numbers, calls of the program, images, the lines of its texts, and findings."""
import argparse
import functools
import hashlib
import json
import os
import re
import struct
import subprocess
import sys
import tempfile
import time
from collections import namedtuple
from dataclasses import dataclass, field
from pathlib import Path

import progress

ROOT = Path(__file__).resolve().parent.parent
RAN = (0, 4, 5)


class ProgramError(Exception):
    """Why there is no program to call, in a line."""


# ---- the machine


# Bytes of a word and of a line, and the address at which shared data begins.
WORD, LINE_BYTES, SHARED = 4, 16, 0x40000000
# The most that a machine has: columns or rows, contexts a node, home lines a node, words of code, and nodes times the limit.
MOST_SIDE, MOST_CONTEXTS, MOST_LINES, MOST_WORDS, MOST_TURNS = 16, 4, 4096, 65536, 8388608


def options_of(command, behind=''):
    """The options of a command by their names, from the program's own table: the last number of each, and its default. They are those that stand open,
    and where an option is named what stands behind it, beside them or in their place."""
    table = json.loads((ROOT / 'tools' / 'words.json').read_text())
    return {option['name'].removeprefix('--'): option for option in table['commands'][command]['options'] if option['behind'] in ('', behind)}


def limit_of(nodes):
    """The greatest limit that a machine of so many nodes has."""
    return min(options_of('run')['limit']['last'], MOST_TURNS // nodes)


# ---- the program


class Standing(os.PathLike):
    """The program that stands, for which the launcher is asked at its first use: the proved one, else one that nothing is proved of, which the
    launcher says on standard error."""

    @functools.cached_property
    def path(self):
        """Its path. Where none stands the launcher's line says what builds one."""
        ran = subprocess.run([ROOT / 'alewife', '--which'], stdout=subprocess.PIPE, stderr=subprocess.PIPE, text=True)
        if ran.returncode != 0:
            raise ProgramError(ran.stderr.strip().removeprefix('alewife: '))
        print(ran.stderr, end='', file=sys.stderr, flush=True)
        return ran.stdout.removesuffix('\n')

    def __fspath__(self):
        return self.path

    def __str__(self):
        return self.path


BUILT = Standing()


@dataclass(frozen=True)
class Answer:
    """What came of a call: its status, and what it wrote to standard output and to standard error."""
    status: int
    out: bytes
    err: bytes

    def line(self):
        """The line on standard error."""
        return self.err.decode(errors='replace').strip()


def no_program(binary, why):
    """The error of a program that can't be run."""
    return ProgramError(f"{binary} can't be run: {why}. Name the program, or build it: ./alewife --build")


def called(binary, words, data=b''):
    """Calls the program on bytes."""
    pipes = dict.fromkeys(('stdin', 'stdout', 'stderr'), subprocess.PIPE)
    try:
        process = subprocess.Popen([str(binary), *map(str, words)], **pipes)
    except OSError as fault:
        raise no_program(binary, fault.strerror) from fault
    with process, progress.of_call(process, words[0] if words else ''):
        try:
            out, err = process.communicate(data)
        except BaseException:
            process.kill()
            raise
    return Answer(process.returncode, out, err)


@dataclass(frozen=True)
class Measured(Answer):
    """An answer, and what it took: seconds of the processor, seconds of the clock, and the most memory in MB."""
    processor: float
    wall: float
    memory: float


def measured(binary, words, path):
    """Calls the program on a file, and measures it. The streams are files, so that it waits for nobody."""
    with open(path, 'rb') as source, tempfile.TemporaryFile() as out, tempfile.TemporaryFile() as err:
        begun = time.monotonic()
        try:
            child = subprocess.Popen([str(binary), *map(str, words)], stdin=source, stdout=out, stderr=err)
        except OSError as fault:
            raise no_program(binary, fault.strerror) from fault
        _, status, used = os.wait4(child.pid, 0)
        wall = time.monotonic() - begun
        out.seek(0)
        err.seek(0)
        return Measured(os.waitstatus_to_exitcode(status), out.read(), err.read(), used.ru_utime + used.ru_stime, wall, used.ru_maxrss / 1024)


def takes_workers(binary):
    """Whether the program has workers. Refuses what is no alewife."""
    made = called(binary, ['asm'], b'        ta 0\n')
    if made.status != 0 or not made.out.startswith(MAGIC):
        raise ProgramError(f'{binary} is no alewife: asm of one instruction ends with {made.status} and no image. {made.line()}')
    return called(binary, ['run', '--workers', '1'], made.out).status == 0


GDB, GDB_VERSION = 'gdb-multiarch', 13


def no_debugger():
    """Why there is no GDB of the version that wrote the transcripts, in a line, or nothing where there is one."""
    try:
        said = subprocess.run([GDB, '--version'], stdout=subprocess.PIPE, text=True).stdout.partition('\n')[0]
    except OSError:
        return f'there is no {GDB}'
    return '' if f' {GDB_VERSION}.' in said else f'the transcripts are of GDB {GDB_VERSION}, and not of {said}'


# ---- images


MAGIC = b'ALEW'
HEAD = struct.Struct('>4sHBBBBHIIII')
DATA = struct.Struct(f'>I{LINE_BYTES}s')
START = struct.Struct('>HBBI')
ALWAYS = struct.Struct('>I')
FIRST_VERSION_SIDE = 8
Sizes = namedtuple('Sizes', 'width height contexts lines')


@dataclass(frozen=True)
class Image:
    """An image: its sizes, the bytes of its code, its data lines by number, where contexts start as (node, slot, address), and its
    Trap-Always lines."""
    sizes: Sizes
    code: bytes = b''
    data: dict = field(default_factory=dict)
    starts: tuple = ()
    always: tuple = ()

    def packed(self):
        """Its bytes."""
        head = packed_head(self.sizes, len(self.code) // WORD, len(self.data), len(self.starts), len(self.always))
        return b''.join([head, self.code, *(DATA.pack(*line) for line in sorted(self.data.items())),
                         *(START.pack(node, slot, 0, address) for node, slot, address in self.starts), *map(ALWAYS.pack, self.always)])


def packed_head(sizes, code, data, starts, always):
    """The head of an image with so many members of each kind."""
    version = 1 if max(sizes.width, sizes.height) <= FIRST_VERSION_SIDE else 2
    return HEAD.pack(MAGIC, version, sizes.width, sizes.height, sizes.contexts, 0, sizes.lines, code, data, starts, always)


def image_of(data):
    """The image of bytes that the program takes."""
    _, _, width, height, contexts, _, lines, code, bodies, starts, always = HEAD.unpack_from(data)
    of_data = HEAD.size + WORD * code
    of_starts = of_data + DATA.size * bodies
    of_always = of_starts + START.size * starts
    read = START.iter_unpack(data[of_starts:of_always])
    return Image(Sizes(width, height, contexts, lines), data[HEAD.size:of_data], dict(DATA.iter_unpack(data[of_data:of_starts])),
                 tuple((node, slot, address) for node, slot, _, address in read), tuple(line for line, in ALWAYS.iter_unpack(data[of_always:])))


def digest_of(image):
    """The first 16 digits of an image's SHA-256, by which tables and pictures name it."""
    return hashlib.sha256(image).hexdigest()[:16]


# ---- texts


DIGITS = 64
SUMMARY = '''ALEWIFE REPORT 1
mesh {width} {height} contexts {contexts} lines {lines}
params pointers {pointers} sets {sets} limit {limit}
ended {ended}
entries {entries} turns {turns} misses {misses} evicts {evicts}
messages RREQ {RREQ} WREQ {WREQ} REPM {REPM} UPDATE {UPDATE} ACKC {ACKC} RDATA {RDATA} WDATA {WDATA} INV {INV} BUSY {BUSY}
hops {hops} handlers {handlers} spills {spills}
'''
SUMMARY_NAMES = tuple(re.findall(r'\{(\w+)\}', SUMMARY))
ENDED = r'[^,\n]+'

# The lists of texts: the word before the count of each, and how its rows begin.
LISTS = {'entries': '[0-9]+ [A-Z]', 'runs': '[0-9]+ [0-9]+$', 'prints': '[0-9]+ 0x', 'memory': '0x', 'state': '(?!end$)'}
IMAGE_ROW = '[0-9a-f]+$'
ENTRY = '([0-9]+) ([IDHE]) ([0-9]+)(?: ([0-9]+))?'


def form_of(text):
    """The form of a text whose numbers, and how it ended, are names in braces."""
    return re.compile(re.sub(r'\{(\w+)\}', lambda name: f'(?P<{name[1]}>{ENDED if name[1] == "ended" else "[0-9]+"})', text))


SUMMARY_FORM = form_of(SUMMARY)


def cut_in_rows(digits):
    """Hexadecimal digits in rows, as the image of a text has them."""
    return [digits[at:at + DIGITS] for at in range(0, len(digits), DIGITS)]


def image_rows(image):
    """The rows of an image in a text."""
    return cut_in_rows(image.hex())


def summary_of(text):
    """The names and numbers of a summary, which a report begins with, as texts; None of another text."""
    match = SUMMARY_FORM.match(text)
    return match.groupdict() if match else None


@dataclass(frozen=True)
class Run:
    """What the lines of a trace say: its image, its parameters, and the events of each stamp, as 'D 1 0'."""
    image: bytes
    params: dict
    events: dict


def run_of(lines):
    """The run of the lines of a trace, from 'image n' to the last entry."""
    at = next(at for at, line in enumerate(lines) if line.startswith('params '))
    params, events = lines[at].split()[1:], {}
    for entry in lines[at + 2:]:
        stamp, _, event = entry.partition(' ')
        events.setdefault(int(stamp), []).append(event)
    return Run(bytes.fromhex(''.join(lines[1:at])), dict(zip(params[::2], map(int, params[1::2]))), dict(sorted(events.items())))


def checkpoint_of(text):
    """The lines of a checkpoint behind its title: those of its trace, and those of the state there; None of another text."""
    lines = text.split('\n')
    place = next((at for at, line in enumerate(lines) if line.startswith('state ')), None)
    if place is None or lines[-2:] != ['end', ''] or lines[place] != f'state {len(lines) - place - 3}':
        return None
    return lines[1:place], lines[place + 1:-2]


def prints_of(report):
    """The printed words of a report in JSON, a line each, by context, each context's in its order."""
    return ''.join(f'{context} 0x{word:08x}\n' for context, word in sorted(report['prints'], key=lambda pair: pair[0]))


# ---- words and findings


def positive(text):
    """A number above 0, for the words of a script."""
    if not text.isdecimal() or int(text) < 1:
        raise argparse.ArgumentTypeError(f'{text} is no number above 0')
    return int(text)


class Findings:
    """What is wrong, each said as it is found, in the form that a function gives it."""

    def __init__(self, form):
        """None yet."""
        self.form, self.count = form, 0

    def say(self, *what):
        """Says one, and counts it."""
        self.count += 1
        print(self.form(*what))
