"""The line that tells a terminal how far a tool is: it is written over each second, and goes when all is done. Where standard error is no terminal
nothing is written.

    with progress.shown('reading'): ..                    alewife-gdb: reading, 12 s
    for row in progress.counted(rows, 'rows'): ..         sweep: 12 of 504 rows, 3 s, 123 s to go
    with progress.of_call(process, 'outcomes'): ..        alewife-outcomes: outcomes, 40 s, 240 MB

What began first is shown: of a tool's calls of the program nothing, while the tool itself says how far it is.
"""
import re
import shutil
import sys
import threading
import time
from contextlib import contextmanager
from pathlib import Path

AFTER, EACH = 2, 1
CLEAR = '\r\x1b[K'
MEMORY = re.compile(r'^VmHWM:\s*(\d+) kB', re.M)


class Line:
    """The line, and what is under way: when each part began, and a function from its seconds to what is said of it, or to '' where nothing is."""

    def __init__(self):
        """Nothing is under way."""
        self.parts, self.lock, self.ended, self.teller = [], threading.Lock(), threading.Event(), None

    def begin(self, text):
        """A part is under way. The first has a thread tell of it."""
        part = (time.monotonic(), text)
        with self.lock:
            self.parts.append(part)
            if len(self.parts) == 1:
                self.ended.clear()
                self.teller = threading.Thread(target=self.tell, daemon=True)
                self.teller.start()
        return part

    def end(self, part):
        """A part is done. The last clears the line."""
        with self.lock:
            self.parts.remove(part)
            teller = None if self.parts else self.teller
            if teller:
                self.ended.set()
        if teller:
            teller.join()

    def tell(self):
        """Tells of the first part each second, till none is under way."""
        is_written = False
        while not self.ended.wait(EACH):
            with self.lock:
                begun, text = self.parts[0] if self.parts else (time.monotonic(), None)
            seconds = time.monotonic() - begun
            if seconds >= AFTER and (said := text(seconds)):
                self.write(f'{Path(sys.argv[0]).name}: {said}')
                is_written = True
        if is_written:
            self.write('')

    def write(self, said):
        """Writes the line over."""
        sys.stderr.write(CLEAR + said[:shutil.get_terminal_size().columns - 1])
        sys.stderr.flush()


LINE = Line()


def is_seen():
    """Whether the line is shown."""
    return sys.stderr.isatty()


@contextmanager
def shown_as(text):
    """Shows what a function of the seconds says, for as long as something is under way."""
    if not is_seen():
        yield
        return
    part = LINE.begin(text)
    try:
        yield
    finally:
        LINE.end(part)


def shown(doing):
    """Shows what is done, and for how long."""
    return shown_as(lambda seconds: f'{doing}, {seconds:.0f} s')


def memory_of(process):
    """The most memory that a process has had, as ' 240 MB' behind a comma, where the system tells it."""
    try:
        found = MEMORY.search(Path(f'/proc/{process}/status').read_text())
    except OSError:
        found = None
    return f', {int(found[1]) // 1024} MB' if found else ''


def of_call(process, doing):
    """Shows a call of the program, by what can be seen of its process from outside."""
    return shown_as(lambda seconds: f'{doing}, {seconds:.0f} s{memory_of(process.pid)}')


def told_count(done, count, noun, seconds):
    """How many of so many are done, the seconds, and the seconds to go where as many more take as long."""
    left = f', {seconds / done * (count - done):.0f} s to go' if done else ''
    return f'{done} of {count} {noun}, {seconds:.0f} s{left}'


def counted(things, noun, count=None):
    """Hands on each of some things, and shows how many are done."""
    count, done = len(things) if count is None else count, 0
    with shown_as(lambda seconds: told_count(done, count, noun, seconds)):
        for thing in things:
            yield thing
            done += 1
