"""The cases: rows of cases/*.jsonl, each a command line with its input and what is wanted of it. README.md says their form."""
import hashlib
import json
import os
import re
import shlex
import subprocess
import tempfile
from concurrent.futures import ThreadPoolExecutor
from dataclasses import dataclass, field
from pathlib import Path

import alewife

HERE = Path(__file__).resolve().parent
OUTSIDE = 'an outside program'
SECONDS = 60
FIELDS = {'name': str, 'about': str, 'source': str, 'words': str, 'input': (str, dict), 'status': int, 'output': (str, dict), 'error': str}
OPTIONAL = {'input': '', 'output': '', 'error': ''}
INPUTS, OUTPUTS = {'hex', 'zeros'}, {'hex', 'sha256', 'of', 'holds', 'ends'}
ENDS = b'ALEWIFE OUTCOMES'
LONGEST = 8192


class Fault(Exception):
    """A row that isn't one, or a program that can't be run."""


@dataclass
class Answer:
    """What a command line answers: its last command's status, output and error line, and what each command before wrote."""
    status: int
    output: bytes
    error: str
    before: list = field(default_factory=list)


# ---- reading and writing


def groups():
    """The groups of cases, by their files."""
    return sorted(file.stem for file in HERE.glob('*.jsonl'))


def read(group):
    """The rows of a group."""
    file = HERE / f'{group}.jsonl'
    if not file.is_file():
        raise Fault(f'there is no group {group}; there are {", ".join(groups())}')
    rows = [checked(f'{file.name}:{number}', line) for number, line in enumerate(file.read_text().splitlines(), 1)]
    names = [row['name'] for row in rows]
    for name in sorted({name for name in names if names.count(name) > 1}):
        raise Fault(f'{file.name}: two rows have the name {name}')
    return rows


def checked(place, line):
    """The row of a line."""
    try:
        row = json.loads(line)
    except ValueError as fault:
        raise Fault(f'{place}: {fault}') from fault
    for name, kind in FIELDS.items():
        if not isinstance(row.get(name, OPTIONAL.get(name)), kind):
            raise Fault(f'{place}: no {name}, or another value than a row has there')
    for name, forms in (('input', INPUTS), ('output', OUTPUTS)):
        value = row.get(name, '')
        if isinstance(value, dict) and not (set(value) <= forms | {'bytes'} and set(value) & forms):
            raise Fault(f'{place}: {name} has none of the forms {", ".join(sorted(forms))}')
    if set(row) - set(FIELDS):
        raise Fault(f'{place}: no row has {", ".join(sorted(set(row) - set(FIELDS)))}')
    return row


def write(group, rows):
    """Writes the rows of a group, a line each."""
    lines = [json.dumps({name: row[name] for name in FIELDS if name in row}, ensure_ascii=False) + '\n' for row in rows]
    (HERE / f'{group}.jsonl').write_text(''.join(lines))


def form_of(data):
    """How an output stands in a row: a text as itself, other bytes in hexadecimal, and what is long by its digest."""
    if data.startswith(ENDS):
        return {'ends': ends_in(data).decode()}
    if len(data) > LONGEST:
        return {'sha256': hashlib.sha256(data).hexdigest(), 'bytes': len(data)}
    if data.isascii() and all(byte >= 32 or byte in b'\t\n\r' for byte in data):
        return data.decode()
    return {'hex': data.hex()}


def ends_in(data):
    """A text of outcomes without how many places were kept and without turns that lead there: another search keeps other places and finds other turns."""
    kept, left, behind = [], {}, re.compile(rb' (prints|memory|runs) ([0-9]+)')
    for line in data.split(b'\n'):
        name = next((name for name in (b'prints', b'memory', b'runs') if left.get(name)), None)
        if name:
            left[name] -= 1
        else:
            left = {name: int(count) for name, count in behind.findall(line)}
        if name != b'runs' and not (name is None and line.startswith(b'places ')):
            kept.append(line if name else re.sub(rb' runs [0-9]+$', b'', line))
    return b'\n'.join(kept)


# ---- running


def commands(row):
    """The commands of a row's line, each as words."""
    return [shlex.split(command) for command in row['words'].split(' | ')]


def run(program, words, data):
    """What one command answers to bytes, or to an open file."""
    given = {'stdin': data} if hasattr(data, 'fileno') else {'input': data}
    try:
        ran = subprocess.run([str(program), *words], stdout=subprocess.PIPE, stderr=subprocess.PIPE, timeout=SECONDS, **given)
    except subprocess.TimeoutExpired as fault:
        raise Fault(f'no answer in {SECONDS} seconds') from fault
    except OSError as fault:
        raise alewife.no_program(program, fault.strerror) from fault
    return Answer(ran.returncode, ran.stdout, ran.stderr.decode(errors='replace'))


def opened(given):
    """The bytes of an input, or an open file of so many bytes of 0."""
    if isinstance(given, str):
        return given.encode()
    if 'hex' in given:
        return bytes.fromhex(given['hex'])
    file = tempfile.TemporaryFile()
    file.truncate(given['zeros'])
    return file


def answer_of(program, row):
    """What a program answers to a row's line. A command that says something on standard error is the last that is run."""
    data, before = opened(row.get('input', '')), []
    for words in commands(row):
        answer = run(program, words, data)
        before.append(answer.output)
        data = answer.output
        if answer.error:
            break
    answer.before = before[:-1]
    return answer


def on_each(work, rows):
    """What a function gives of each row, by as many threads as there are processors."""
    with ThreadPoolExecutor(os.cpu_count()) as threads:
        return list(threads.map(work, rows))


# ---- comparing


def line_difference(wanted, written):
    """The first line in which two texts differ."""
    ours, theirs = wanted.split(b'\n'), written.split(b'\n')
    at = next((k for k, (a, b) in enumerate(zip(ours, theirs)) if a != b), min(len(ours), len(theirs)))
    shown = [lines[at][:120] if at < len(lines) else 'its end' for lines in (ours, theirs)]
    return f'line {at + 1} of the output is {shown[1]}, not {shown[0]}'


def output_difference(row, answer):
    """How the output differs from what is wanted, or None."""
    wanted, written = row.get('output', ''), answer.output
    if isinstance(wanted, dict) and 'holds' in wanted:
        missing = [text for text in wanted['holds'] if text.encode() not in written]
        return f'the output has no {missing[0]!r}' if missing else None
    if isinstance(wanted, dict) and 'ends' in wanted:
        expected, ends = wanted['ends'].encode(), ends_in(written)
        return None if ends == expected else line_difference(expected, ends)
    if isinstance(wanted, dict) and 'sha256' in wanted:
        is_same = hashlib.sha256(written).hexdigest() == wanted['sha256']
        return None if is_same else f'the output, of {len(written)} bytes, has another digest'
    if isinstance(wanted, dict) and 'of' in wanted:
        expected = answer.before[wanted['of'] - 1] if len(answer.before) >= wanted['of'] else b''
    else:
        expected = bytes.fromhex(wanted['hex']) if isinstance(wanted, dict) else wanted.encode()
    return None if written == expected else line_difference(expected, written)


def difference(row, answer):
    """How an answer differs from what is wanted, or None."""
    error = row['error'] + '\n' if row.get('error') else ''
    if answer.status != row['status']:
        return f'the status is {answer.status}, not {row["status"]}; standard error has {answer.error!r}'
    if answer.error != error:
        return f'standard error has {answer.error!r}, not {error!r}'
    return output_difference(row, answer)
