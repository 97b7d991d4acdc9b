"""The one file that GDB can read from here: the linked program, so that nobody has to name it twice."""
import re
import struct
from dataclasses import dataclass

from gdb_wire import escaped

NUMBER, MOST_READ = 3, 0x1800
NO_FILE, BAD_NUMBER, READ_ONLY = b'F-1,2', b'F-1,9', b'F-1,1e'
REGULAR = 0o100444
WRITING = 0b11
ASKED = re.compile(rb'vFile:(\w+):(.*)', re.S)


@dataclass(frozen=True)
class File:
    """A file: its name, and its bytes."""
    name: str
    data: bytes

    def opened(self, words):
        """vFile:open: the number of the file."""
        name, flags, _ = words.split(b',')
        if bytes.fromhex(name.decode()).decode() != self.name:
            return NO_FILE
        return READ_ONLY if int(flags, 16) & WRITING else b'F%x' % NUMBER

    def told(self, words):
        """vFile:fstat: its size, and that it can be read."""
        stat = struct.pack('>7I3Q3I', 0, 0, REGULAR, 1, 0, 0, 0, len(self.data), MOST_READ, -(-len(self.data) // 512), 0, 0, 0)
        return b'F%x;' % len(stat) + escaped(stat)

    def part(self, words):
        """vFile:pread: bytes of it."""
        _, count, begin = (int(word, 16) for word in words.split(b','))
        data = self.data[begin:begin + min(count, MOST_READ)]
        return b'F%x;' % len(data) + escaped(data)

    def answer(self, body):
        """The answer to a packet about files."""
        kind, words = ASKED.fullmatch(body).groups()
        if kind in (b'setfs', b'close'):
            return b'F0'
        if kind == b'open':
            return self.opened(words)
        if kind not in (b'fstat', b'pread'):
            return b''
        if int(words.split(b',')[0], 16) != NUMBER:
            return BAD_NUMBER
        return self.told(words) if kind == b'fstat' else self.part(words)
