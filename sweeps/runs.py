"""The runs of a sweep: the numbers of its options, each run's summary as a row, and the file that rows are kept in."""
import collections
import csv
import errno
import fcntl
import io
import itertools
import math
import os
import re
from concurrent.futures import ThreadPoolExecutor
from dataclasses import dataclass
from pathlib import Path

import idle
import progress
import times
from alewife import HEAD, MAGIC, RAN, SUMMARY_NAMES, ProgramError, called, digest_of, options_of, summary_of
from idle import Idle

MOST, MOST_TOLD = 1_000_000, 10
MOST_POINTERS, ALL = options_of('run')['pointers']['last'], options_of('run')['pointers']['word']
OF_IMAGE = ('name', 'image', 'width', 'height', 'contexts', 'lines')
COUNTS = SUMMARY_NAMES[SUMMARY_NAMES.index('ended'):]


@dataclass(frozen=True)
class Way:
    """A way to run: the options that tell its runs apart, and what a row has of a run besides."""
    options: tuple
    counts: tuple

    @property
    def key(self):
        """The columns that tell a run from all others."""
        return ('image', *self.options)

    @property
    def columns(self):
        """The columns of a row."""
        return (*OF_IMAGE, *self.options, *self.counts, 'program')


SEEDED = Way(('seed', 'workers', 'pointers', 'sets', 'limit', 'evict'), COUNTS)
TIMED = Way(('seed', 'pointers', 'sets', 'limit', *times.COSTS), (*COUNTS, *times.NAMES))


class SweepError(Exception):
    """Why there is no sweep, in a line."""


class RunError(SweepError):
    """Why a run has no row, in a line."""


# ---- what is run


def numbers(text):
    """The numbers of a list as 0-9,16: each part is a number or a range with both its ends, and no number comes twice."""
    found = []
    for part in text.split(','):
        match = re.fullmatch(r'([0-9]+)(?:-([0-9]+))?', part)
        if not match:
            raise SweepError(f'{text} is no list of numbers and ranges, as 0-9,16')
        first, last = int(match[1]), int(match[2] or match[1])
        if not 0 <= last - first < MOST - len(found):
            raise SweepError(f'{part} ends before it begins, or there are more than {MOST} numbers')
        found += range(first, last + 1)
    if len(set(found)) < len(found):
        raise SweepError(f'{text} has a number twice')
    return found


def pointers(text):
    """The numbers of a list of pointers, and behind them the word for a full map where it has that."""
    parts = text.split(',')
    if parts.count(ALL) > 1:
        raise SweepError(f'{text} has {ALL} twice')
    named = [part for part in parts if part != ALL]
    return (numbers(','.join(named)) if named else []) + [ALL] * (ALL in parts)


def way_of(names):
    """The way to run that has these options, and maybe other columns; None where there is none."""
    return next((way for way in (SEEDED, TIMED) if set(way.options) <= set(names)), None)


@dataclass(frozen=True)
class Image:
    """An image, the first 16 digits of its SHA-256, by which rows name it, the name of what it runs, and what of it is idle, if that is asked."""
    data: bytes
    digest: str
    name: str
    idle: Idle | None = None

    @property
    def nodes(self):
        """How many nodes it has, 0 where it is none."""
        _, _, width, height, *_ = HEAD.unpack_from(self.data) if self.data.startswith(MAGIC) and len(self.data) >= HEAD.size else [0] * 4
        return width * height

    def columns(self, way):
        """The columns of a row of its runs."""
        return (*way.columns[:-1], *(idle.NAMES if way is SEEDED else idle.TIMED_NAMES), way.columns[-1]) if self.idle else way.columns


def read_image(path, name=None, elf=None, functions=()):
    """The image in a file, called by a name, or else by the file's; functions of its linked program are idle."""
    data = read(path)
    found = idle.idle_of(elf, functions, data) if functions else None
    if functions and not found:
        raise SweepError(f"the code of {elf} isn't that of {path}")
    return Image(data, digest_of(data), name or Path(path).stem, found)


def read(path):
    """The bytes of a file."""
    try:
        return Path(path).read_bytes()
    except OSError as fault:
        raise SweepError(f"can't read {path}: {fault.strerror}") from fault


def runs_of(lists, part, parts):
    """The runs of a part, each as its options: all combinations in order, of which part i has the i-th and each parts-th behind it."""
    count = math.prod(len(each) for each in lists.values())
    if count > MOST:
        raise SweepError(f'{count} runs, and a sweep has at most {MOST}')
    order = [name for name in lists if name != 'seed'] + ['seed']
    for chosen in itertools.islice(itertools.product(*(lists[name] for name in order)), part - 1, None, parts):
        yield {name: str(value) for name, value in zip(order, chosen)}


@dataclass(frozen=True)
class Program:
    """A program, and the first 16 digits of its SHA-256, by which rows say which one made them."""
    path: str
    digest: str


def read_program(binary):
    """The program of a file."""
    try:
        path = os.path.abspath(binary)
    except ProgramError as error:
        raise SweepError(str(error)) from error
    return Program(path, digest_of(read(path)))


def asked(binary, words, data):
    """What the program writes. Refuses a status that no run has."""
    try:
        ran = called(binary, words, data)
    except ProgramError as error:
        raise SweepError(str(error)) from error
    if ran.status not in RAN:
        raise RunError(f'refused: {" ".join(words)}: status {ran.status}, {ran.line()}')
    return ran.out


def summary_by_workers(binary, words, image):
    """The summary of a run by workers, whose claim is audited: its trace says which run it was, for another call is another run."""
    trace = asked(binary, [*words, '--write', 'trace'], image.data)
    if asked(binary, ['audit'], asked(binary, ['replay', '--write', 'claim'], trace)) != b'sound\n':
        raise RunError(f'{" ".join(words)}: the claim of the run is not sound')
    return asked(binary, ['replay', '--write', 'summary'], trace)


def verdict_of(binary, claim):
    """What the program's audit says of a claim in a line: sound, how it differs, or why it is refused."""
    try:
        ran = called(binary, ['audit'], claim)
    except ProgramError as error:
        raise SweepError(str(error)) from error
    said = ran.out.decode(errors='replace').strip() or ran.line()
    return f'{said} (status {ran.status})' if ran.status else said


def words_of(options, nodes):
    """The words of a run on so many nodes. The seed of a run by workers is the number of a try, and that of a timed run is of its waits."""
    way = way_of(options)
    said = {name: options[name] for name in way.options}
    if way is SEEDED:
        said.pop('workers' if said['workers'] == '0' else 'seed')
    if said['pointers'] == str(nodes) and not 1 <= nodes <= MOST_POINTERS:
        said['pointers'] = ALL
    names = {'seed': times.TURNING} if way is TIMED else {}
    return ['run', *(word for name, value in said.items() for word in (names.get(name, f'--{name}'), value))]


def read_as(read, text, words, called):
    """What a text of a run says, as names and numbers."""
    told = read(text.decode(errors='replace'))
    if not told:
        raise RunError(f'{" ".join(words)}: what the program wrote is no {called}')
    return told


def joined(words, *told):
    """What several texts say of one run. Refuses two that differ."""
    made = {}
    for name, value in (each for one in told for each in one.items()):
        if made.setdefault(name, value) != value:
            raise RunError(f'{" ".join(words)}: {name} is {made[name]} and {value}')
    return made


def row_of(program, image, options):
    """Runs an image: its row, by the program's summary. A timed run is made twice, since no text has both its summary and its cycles."""
    words = words_of(options, image.nodes)
    if options.get('workers', '0') == '0':
        text = asked(program.path, [*words, '--write', 'summary'], image.data)
    else:
        text = summary_by_workers(program.path, words, image)
    told = [options, read_as(summary_of, text, words, 'summary')]
    if way_of(options) is TIMED:
        told.append(read_as(times.times_of, asked(program.path, [*words, '--write', 'cycles'], image.data), words, 'account of cycles'))
    if image.idle:
        told.append(idle_columns(image.idle, asked(program.path, [*words, '--write', 'profile'], image.data), told[-1], options))
    return {'name': image.name, 'image': image.digest, **joined(words, *told), 'program': program.digest}


def idle_columns(found, profile, told, options):
    """What a row has of idle turns, by the profile of its run and by what was told of it last; a turn takes `hit` cycles."""
    turns, misses = found.counts(profile)
    work = {'work_cycles': str(int(told['turn_cycles']) - int(options['hit']) * turns)} if way_of(options) is TIMED else {}
    return {'idle': found.told(), 'idle_turns': str(turns), 'idle_misses': str(misses), **work}


def row_or_fault(program, image, options):
    """The row of a run, or why it has none."""
    try:
        return row_of(program, image, options)
    except RunError as fault:
        return fault


def rows_of(program, image, chosen, jobs):
    """The row of each run, or why it has none, in order. So many run at once, and as many wait for their turn to be written."""
    waiting = collections.deque()
    with ThreadPoolExecutor(jobs) as pool:
        try:
            for options in chosen:
                waiting.append(pool.submit(row_or_fault, program, image, options))
                if len(waiting) == 2 * jobs:
                    yield waiting.popleft().result()
            yield from (each.result() for each in waiting)
        finally:
            pool.shutdown(cancel_futures=True)


# ---- rows in files


def key_of(row):
    """What tells a run from all others."""
    return tuple(row[name] for name in way_of(row).key)


def line_of(values):
    """A line of a table."""
    made = io.StringIO()
    csv.writer(made, lineterminator='\n').writerow(values)
    return made.getvalue()


def read_rows(path, text):
    """The columns of a table of rows, and its rows, each with its line's number."""
    lines, whole = csv.reader(io.StringIO(text, newline='')), text.count('\n')
    columns = next(lines, [])
    way = way_of(columns)
    if not way or 'image' not in columns:
        raise SweepError(f'{path}: the first line is no header of a sweep')
    rows = []
    for values in lines:
        row = dict(zip(columns, values))
        if lines.line_num > whole or len(values) != len(columns) or not all(row[name].isdecimal() for name in way.options):
            raise SweepError(f'{path}: line {lines.line_num} is no whole row')
        rows.append((lines.line_num, row))
    return columns, rows


def keys_in(path, text, image, way, wanted):
    """The keys of the rows that a file of this sweep has. Refuses a file of another one."""
    columns, rows = read_rows(path, text)
    if tuple(columns) != image.columns(way):
        raise SweepError(f'{path} has other columns')
    for number, row in rows:
        if row['image'] != image.digest or key_of(row) not in wanted or (image.idle and row['idle'] != image.idle.told()):
            raise SweepError(f'{path} is there with other runs (line {number}): name another file, or remove it')
    return {key_of(row) for _, row in rows}


class Sheet:
    """The rows of a sweep as they come, in PATH.partial, which gets the name PATH when all are there."""

    def __init__(self, path, columns):
        """Opens the file, for this sweep alone, and cuts off a row that isn't whole."""
        self.path, self.partial, self.columns = Path(path), Path(f'{path}.partial'), columns
        try:
            self.file = os.open(self.partial, os.O_RDWR | os.O_CREAT, 0o644)
            self.lock()
            with open(self.file, 'rb', closefd=False) as rows:
                data = rows.read()
            self.size = data.rfind(b'\n') + 1
            os.truncate(self.file, self.size)
            os.lseek(self.file, self.size, os.SEEK_SET)
        except OSError as fault:
            raise SweepError(f"can't write {self.partial}: {fault.strerror}") from fault
        self.text = data[:self.size].decode(errors='replace') or line_of(columns)
        if not self.size:
            self.add(columns)

    def __enter__(self):
        return self

    def __exit__(self, *_):
        """Closes the file. One without rows isn't left behind."""
        if self.size == len(line_of(self.columns)):
            self.partial.unlink(missing_ok=True)
        os.close(self.file)

    def lock(self):
        """Refuses a second sweep on the same file, where the file system has locks."""
        try:
            fcntl.flock(self.file, fcntl.LOCK_EX | fcntl.LOCK_NB)
        except BlockingIOError as fault:
            raise SweepError(f'another sweep writes {self.partial}') from fault
        except OSError:
            pass

    def add(self, values):
        """Adds a row whole, or not at all."""
        line = line_of(values).encode()
        try:
            if os.write(self.file, line) < len(line):
                raise OSError(errno.ENOSPC, os.strerror(errno.ENOSPC))
        except OSError as fault:
            os.truncate(self.file, self.size)
            raise SweepError(f"can't write {self.partial}: {fault.strerror}") from fault
        self.size += len(line)

    def finish(self):
        """All rows are there."""
        try:
            os.fsync(self.file)
            os.replace(self.partial, self.path)
        except OSError as fault:
            raise SweepError(f"can't write {self.path}: {fault.strerror}") from fault


def refuse_device(path):
    """Refuses to write what is there and is no file, as a device, for the file would take its place."""
    if os.path.exists(path) and not os.path.isfile(path):
        raise SweepError(f"can't write {path}: it is there and is no file")


def refuse_faults(faults, count, partial):
    """Refuses a table without some of its rows, and says of the first of them why they are missing."""
    if faults:
        told = [str(fault) for fault in faults[:MOST_TOLD]] + ([f'and {len(faults) - MOST_TOLD} more'] if len(faults) > MOST_TOLD else [])
        kept = f'the others are in {partial}' if len(faults) < count else 'there is no row'
        raise SweepError('\nsweep: '.join([*told, f'{len(faults)} of {count} runs failed, and {kept}: the same words try again']))


def sweep(path, binary, image, way, runs, jobs=1):
    """Runs what isn't in the file yet, so many at once: how many runs that were, and how many there are. A run that fails doesn't end the others."""
    refuse_device(path)
    wanted = {(image.digest, *(run[name] for name in way.options)): run for run in runs}
    if Path(path).exists():
        if len(keys_in(path, read(path).decode(errors='replace'), image, way, wanted)) < len(wanted):
            raise SweepError(f'{path} is there with fewer runs: name another file, and gather both')
        return 0, len(wanted)
    with Sheet(path, image.columns(way)) as sheet:
        done, faults = keys_in(sheet.partial, sheet.text, image, way, wanted), []
        left = [options for key, options in wanted.items() if key not in done]
        for row in progress.counted(rows_of(read_program(binary), image, left, jobs), 'rows', len(left)):
            if isinstance(row, RunError):
                faults.append(row)
            else:
                sheet.add(row[name] for name in image.columns(way))
        refuse_faults(faults, len(wanted), sheet.partial)
        sheet.finish()
    return len(wanted) - len(done), len(wanted)


# ---- parts


def write_whole(path, made):
    """Writes a file whole, or not at all: a text, or bytes."""
    refuse_device(path)
    real = os.path.realpath(path)
    scratch = Path(f'{real}.{os.getpid()}')
    try:
        scratch.write_bytes(made.encode() if isinstance(made, str) else made)
        os.replace(scratch, real)
    except OSError as fault:
        scratch.unlink(missing_ok=True)
        raise SweepError(f"can't write {path}: {fault.strerror}") from fault


def counts_of(row):
    """What two rows of a run have to agree on, whichever program made them."""
    return {name: value for name, value in row.items() if name != 'program'}


def gather(parts):
    """The columns and rows of all parts, in order, each run once. Refuses other columns, and two rows that differ on one run."""
    first, found = None, {}
    for path in parts:
        columns, rows = read_rows(path, read(path).decode(errors='replace'))
        first = first or columns
        if columns != first:
            raise SweepError(f'{path} and {parts[0]} have different headers')
        for number, row in rows:
            place, other = found.setdefault(key_of(row), (f'{path}: line {number}', row))
            if counts_of(other) != counts_of(row):
                raise SweepError(f'{path}: line {number} and {place} differ on one run')
    order = ('name', *(name for name in way_of(first).key if name != 'seed'), 'seed')
    rows = [row for _, row in found.values()]
    return first, sorted(rows, key=lambda row: [row[name].zfill(20) for name in order])
