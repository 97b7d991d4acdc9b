"""How much stack a program wants: the frames along its deepest calls, from the call graphs that GCC writes (-fcallgraph-info=su)."""
import re
from dataclasses import dataclass, field

NODE = re.compile(r'^node: \{ title: "(.*?)" label: "(.*?)"')
EDGE = re.compile(r'^edge: \{ sourcename: "(.*?)" targetname: "(.*?)"')
FRAME = re.compile(r'\\n(\d+) bytes \((.*?)\)')
BY_POINTER = '__indirect_call'
OWN = {'.umul': 0}


@dataclass
class Calls:
    """The functions of a program: the bytes of each one's frame, which it calls, and those whose frame isn't of one size."""
    frames: dict[str, int] = field(default_factory=lambda: dict(OWN))
    called: dict[str, set[str]] = field(default_factory=dict)
    growing: set[str] = field(default_factory=set)

    def add(self, text, number):
        """Adds a graph of GCC's. A title with a colon is a static function's, one with an asterisk is of a name in assembly."""
        def full(title):
            """The name among all sources."""
            return f'{number}:{title}' if ':' in title else title.removeprefix('*')
        for line in text.splitlines():
            if node := NODE.match(line):
                self.add_frame(full(node[1]), FRAME.search(node[2]))
            elif edge := EDGE.match(line):
                self.called.setdefault(full(edge[1]), set()).add(full(edge[2]))

    def add_frame(self, name, frame):
        """Adds a function's frame. A function that is only called in this source has none here."""
        if frame:
            self.frames[name] = int(frame[1])
            if frame[2] != 'static':
                self.growing.add(name)


@dataclass
class Depth:
    """The walk along the calls: what each function wants, those under way, and why that may not be all."""
    calls: Calls
    wanted: dict[str, int] = field(default_factory=dict)
    under_way: list[str] = field(default_factory=list)
    unknown: set[str] = field(default_factory=set)

    def of(self, name):
        """The bytes that a function wants with what it calls, where all of it is known."""
        if name in self.under_way:
            self.unknown.add(f'{plain(name)} calls itself')
            return 0
        if name not in self.wanted:
            self.note(name)
            self.under_way.append(name)
            deepest = max((self.of(each) for each in sorted(self.calls.called.get(name, ()))), default=0)
            self.under_way.pop()
            self.wanted[name] = self.calls.frames.get(name, 0) + deepest
        return self.wanted[name]

    def note(self, name):
        """Notes what isn't known of a function."""
        if name in self.calls.growing:
            self.unknown.add(f'the frame of {plain(name)} grows as it runs')
        if BY_POINTER in self.calls.called.get(name, ()):
            self.unknown.add(f'{plain(name)} calls by a pointer')
        if name not in self.calls.frames and name != BY_POINTER:
            self.unknown.add(f'{plain(name)} is not in C')


def plain(name):
    """A function's name as the source has it."""
    return name.rpartition(':')[2]


def depth_of(calls, name):
    """The bytes of stack that a function wants, and why it may be more, in order."""
    depth = Depth(calls)
    return depth.of(name), sorted(depth.unknown)
