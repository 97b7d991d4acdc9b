"""GDB's remote serial protocol on two streams: packets with their checksums and acknowledgements, and the bytes that are escaped."""
import os
import select

INTERRUPT = b'\x03'
ESCAPE, ESCAPED = 0x7d, b'#$}*'


def checksum(body):
    """The two digits behind a packet's body."""
    return b'%02x' % (sum(body) % 256)


def escaped(data):
    """Bytes as a packet has them."""
    return b''.join(bytes([ESCAPE, byte ^ 0x20]) if byte in ESCAPED else bytes([byte]) for byte in data)


class Wire:
    """Two streams, given as numbers of files. Until both sides do without, each packet is acknowledged."""

    def __init__(self, source, sink):
        self.source, self.sink, self.rest, self.acknowledges = source, sink, b'', True

    def more(self):
        """Reads on: whether there was anything."""
        data = os.read(self.source, 1 << 16)
        self.rest += data
        return bool(data)

    def is_interrupted(self):
        """Whether the user wants to stop what is under way: nothing else comes meanwhile."""
        if not self.rest and select.select([self.source], [], [], 0)[0]:
            self.more()
        before, found, behind = self.rest.partition(INTERRUPT)
        self.rest = before + behind
        return bool(found)

    def receive(self):
        """The body of the next packet, INTERRUPT where the user wants to stop, or None behind the last one."""
        while True:
            begin = self.rest.find(b'$')
            if INTERRUPT in self.rest[:begin if begin >= 0 else None]:
                self.rest = self.rest.partition(INTERRUPT)[2]
                return INTERRUPT
            end = self.rest.find(b'#', begin)
            if begin >= 0 and end >= 0 and len(self.rest) >= end + 3:
                body, told, self.rest = self.rest[begin + 1:end], self.rest[end + 1:end + 3], self.rest[end + 3:]
                if self.is_whole(body, told):
                    return body
            elif not self.more():
                return None

    def is_whole(self, body, told):
        """Whether a packet has its checksum, which the other side is told."""
        whole = told.lower() == checksum(body)
        if self.acknowledges:
            self.write(b'+' if whole else b'-')
        return whole or not self.acknowledges

    def send(self, body):
        """Sends a packet, again as long as the other side wants it so."""
        packet = b'$' + body + b'#' + checksum(body)
        self.write(packet)
        while self.acknowledges:
            while not self.rest and self.more():
                pass
            answer, self.rest = self.rest[:1], self.rest[1:]
            if answer == b'-':
                self.write(packet)
            elif answer in (b'+', b''):
                return

    def write(self, data):
        """Writes bytes."""
        while data:
            data = data[os.write(self.sink, data):]
