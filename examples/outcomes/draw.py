"""Small programs drawn from a number: two to four contexts with a few loads, stores, swaps, branches and prints on one to three lines."""
import random

MACHINES = ((2, 1, 1), (1, 1, 2), (2, 1, 1), (3, 1, 1), (1, 1, 3), (2, 1, 2), (2, 2, 1), (1, 1, 4))
STATEMENTS = {2: (4, 9), 3: (2, 5), 4: (1, 4)}
LOADED = ('%o0', '%l0', '%l1')
STORED = ('%o0', '%o1', '%l0', '%l1', '%g0')
LOADS = (('ld', 4), ('ld', 4), ('ld', 4), ('lduh', 2), ('ldsh', 2), ('ldub', 1), ('ldsb', 1))
STORES = (('st', 4), ('st', 4), ('st', 4), ('sth', 2), ('stb', 1))
BRANCHES = ('be', 'bne', 'be,a', 'bne,a', 'bg', 'bcs')
WORDS = (0, 1, 1, 2, 255, 0x80000000)


class Drawing:
    """A program under way: what it is drawn from, the offsets of its words from the first line, and how many labels it has."""

    def __init__(self, number):
        self.chance, self.labels = random.Random(f'outcomes {number}'), 0
        lines = self.chance.randint(1, 3)
        self.words = [16 * self.chance.randrange(lines) + 4 * self.chance.randrange(4) for _ in range(self.chance.randint(1, 3))]
        self.lines = lines

    def label(self):
        """A name that no line has yet."""
        self.labels += 1
        return f'l{self.labels}'

    def place(self, size):
        """An address of so many bytes in one of the words."""
        return f'[%g1+{self.chance.choice(self.words) + self.chance.randrange(0, 4, size)}]'

    def access(self):
        """A load, a store, a swap or a test and set."""
        kind = self.chance.choices(('load', 'store', 'swap', 'ldstub'), (5, 5, 1, 1))[0]
        if kind == 'load':
            name, size = self.chance.choice(LOADS)
            return [f'{name} {self.place(size)},{self.chance.choice(LOADED)}']
        if kind == 'store':
            name, size = self.chance.choice(STORES)
            return [f'{name} {self.chance.choice(STORED)},{self.place(size)}']
        return [f'{kind} {self.place(4 if kind == "swap" else 1)},{self.chance.choice(LOADED)}']

    def sum(self):
        """A sum."""
        return [f'add {self.chance.choice(LOADED)},{self.chance.choice((1, 3, -1))},{self.chance.choice(LOADED)}']

    def printing(self):
        """A print."""
        return ['ta 1']

    def branch(self):
        """A branch over a print, a load or a store, with another statement in its delay slot."""
        label, register, number = self.label(), self.chance.choice(LOADED), self.chance.choice((0, 1))
        slot = self.chance.choice((['nop'], self.access(), self.sum()))
        over = self.chance.choice((self.access, self.printing))()
        return [f'cmp {register},{number}', f'{self.chance.choice(BRANCHES)} {label}', *slot, *over, f'{label}:']

    def wait(self):
        """A wait until a word isn't 0, which may have no end."""
        label, register = self.label(), self.chance.choice(LOADED)
        return [f'{label}:', f'ld [%g1+{self.chance.choice(self.words)}],{register}', f'tst {register}', f'be {label}', 'nop']

    def assertion(self):
        """A trap where a register isn't a number."""
        return [f'cmp {self.chance.choice(LOADED)},{self.chance.choice((0, 1))}', f'{self.chance.choice(("te", "tne"))} 3']

    def fault(self):
        """An access that traps wherever it is come to."""
        return [self.chance.choice(('ld [%g1+2],%l0', 'st %l0,[%g0]', '.word 0'))]

    def statement(self):
        """A statement, as lines."""
        kinds = (self.access, self.sum, self.printing, self.branch, self.wait, self.assertion, self.fault)
        return self.chance.choices(kinds, (112, 16, 40, 20, 4, 6, 1))[0]()

    def thread(self, least, most):
        """The lines of a thread."""
        lines = ['sethi %hi(0x40000000),%g1']
        for _ in range(self.chance.randint(least, most)):
            lines += self.statement()
        return [*lines, 'ta 0']


def starts(drawing, sizes):
    """Which contexts start, as (node, slot): mostly all."""
    width, height, slots = sizes
    contexts = [(node, slot) for node in range(width * height) for slot in range(slots)]
    return sorted(drawing.chance.sample(contexts, len(contexts) - (len(contexts) > 2 and drawing.chance.random() < 0.2)))


def source(number):
    """The source of a number."""
    drawing = Drawing(number)
    sizes = drawing.chance.choice(MACHINES)
    started, lines = starts(drawing, sizes), [f'.mesh {sizes[0]},{sizes[1]}', f'.contexts {sizes[2]}', '.lines 3']
    least, most = STATEMENTS[len(started)]
    shared = drawing.chance.random() < 0.3
    if shared and len(started) == sizes[0] * sizes[1] * sizes[2]:
        lines += drawing.thread(least, most)
    else:
        lines += [f'.start {node},{slot},t{node}_{slot}' for node, slot in started]
        for node, slot in started:
            lines += [f't{node}_{slot}:', *drawing.thread(least, most)]
    for word in sorted({word for word in drawing.words if drawing.chance.random() < 0.4}):
        lines += [f'.shared {word}', f'.word {drawing.chance.choice(WORDS)}']
    return ''.join(f'{"" if line.endswith(":") else "        "}{line}\n' for line in lines)
