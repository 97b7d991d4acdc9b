"""The SPARC source of a litmus test that herd.py has read, and the final states of it that ends of the program tell."""
from alewife import LINE_BYTES, MOST_SIDE, SHARED
from herd import LitmusError

OPERATIONS = {'+': 'add', '-': 'sub', '&': 'and', '|': 'or', '^': 'xor'}
MOST_WORDS, MOST_NAMES, TEMPORARY = 8, 8, ('%g1', '%g2', '%g3', '%g4', '%g5', '%g6')


def names_in(statements, found):
    """The registers of statements, in the order in which they stand."""
    for kind, *parts in statements:
        if kind == 'let' and parts[0] not in found:
            found.append(parts[0])
        if kind == 'if':
            names_in(parts[1] + parts[2], found)
    return found


class Writer:
    """The code of a thread under way: its lines, where its words' addresses and its registers are, and how many labels it has."""

    def __init__(self, number, test):
        self.lines, self.labels, self.number, self.test = [], 0, number, test
        self.words = {name: f'%l{at}' for at, name in enumerate(test.words)}
        names = names_in(test.threads[number], [name for thread, name in test.registers if thread == number])
        if len(names) > MOST_NAMES:
            raise LitmusError(f'thread {number} has {len(names)} registers, and at most {MOST_NAMES} have room')
        self.names = {name: f'%i{at}' for at, name in enumerate(names)}

    def put(self, text):
        """A line."""
        self.lines.append(f'        {text}')

    def label(self):
        """A label that no line has yet."""
        self.labels += 1
        return f'thread{self.number}_{self.labels}'

    def register(self, name):
        """The register of a name."""
        if name not in self.names:
            raise LitmusError(f'thread {self.number} has no register {name}')
        return self.names[name]

    def expression(self, made, depth=0):
        """The code of an expression, whose value is then in the register that is answered."""
        if depth == len(TEMPORARY):
            raise LitmusError(f'thread {self.number}: an expression is too deep')
        kind, *parts = made
        target = TEMPORARY[depth]
        if kind == 'name':
            return self.register(parts[0])
        if kind == 'number':
            self.put(f'set {parts[0]},{target}')
        elif kind == 'load':
            self.put(f'ld [{self.words[parts[0]]}],{target}')
        elif kind == 'exchange':
            self.put(f'mov {self.expression(parts[1], depth)},{target}')
            self.put(f'swap [{self.words[parts[0]]}],{target}')
        else:
            self.operation(kind, parts, depth)
        return target

    def operation(self, kind, parts, depth):
        """The code of an operation; a comparison comes to 1 or 0."""
        target = TEMPORARY[depth]
        left, right = self.expression(parts[0], depth), self.expression(parts[1], depth + 1)
        if kind in OPERATIONS:
            self.put(f'{OPERATIONS[kind]} {left},{right},{target}')
            return
        self.put(f'xor {left},{right},{target}')
        self.put(f'subcc %g0,{target},%g0')
        self.put(f'addx %g0,0,{target}')
        if kind == '==':
            self.put(f'xor {target},1,{target}')

    def statement(self, made):
        """The code of a statement."""
        kind, *parts = made
        if kind == 'let':
            self.put(f'mov {self.expression(parts[1])},{self.register(parts[0])}')
        elif kind == 'store':
            self.put(f'st {self.expression(parts[1])},[{self.words[parts[0]]}]')
        elif kind == 'do':
            self.expression(parts[0])
        else:
            self.branch(*parts)

    def branch(self, test, then, otherwise):
        """The code of an if."""
        other, end = self.label(), self.label()
        self.put(f'tst {self.expression(test)}')
        self.put(f'be {other}')
        self.put('nop')
        for each in then:
            self.statement(each)
        self.put(f'ba {end}')
        self.put('nop')
        self.lines.append(f'{other}:')
        for each in otherwise:
            self.statement(each)
        self.lines.append(f'{end}:')


def told_of(test, number):
    """The registers of a thread that are told of a final state."""
    return [name for thread, name in test.told if thread == number]


def thread_of(test, number):
    """The code of a thread: addresses and first values into registers, its statements, and what is told of it as prints."""
    writer = Writer(number, test)
    for at, name in enumerate(test.words):
        writer.put(f'set {SHARED + LINE_BYTES * at:#x},{writer.words[name]}')
    for name in writer.names:
        writer.put(f'set {test.registers.get((number, name), 0)},{writer.names[name]}')
    for statement in test.threads[number]:
        writer.statement(statement)
    for name in told_of(test, number):
        writer.put(f'mov {writer.register(name)},%o0')
        writer.put('ta 1')
    return [f'thread{number}:', *writer.lines, '        ta 0']


def source_of(test):
    """The SPARC source of a test: a node a thread, and a line a word."""
    nodes = len(test.threads)
    if nodes > MOST_SIDE or len(test.words) > MOST_WORDS:
        raise LitmusError(f'{nodes} threads and {len(test.words)} words: at most {MOST_SIDE} and {MOST_WORDS} have room')
    lines = [f'! {test.name}', f'        .mesh {nodes},1', f'        .lines {-(-max(1, len(test.words)) // nodes)}']
    lines += [f'        .start {number},0,thread{number}' for number in range(nodes)]
    for at, value in enumerate(test.words.values()):
        lines += [f'        .shared {LINE_BYTES * at}', f'        .word {value}'] if value else []
    lines += ['        .text'] if any(test.words.values()) else []
    return '\n'.join(lines + [line for number in range(nodes) for line in thread_of(test, number)]) + '\n'


def state_of(test, prints, memory):
    """The final state of an end: the values of what is told."""
    printed, words = {}, dict(memory)
    for context, word in prints:
        printed.setdefault(context, []).append(word)
    values = {}
    for number in range(len(test.threads)):
        values |= {(number, name): word for name, word in zip(told_of(test, number), printed.get(number, []), strict=True)}
    addresses = {name: SHARED + LINE_BYTES * at for at, name in enumerate(test.words)}
    return tuple(values[place] if place[0] is not None else words.get(addresses[place[1]], 0) for place in test.told)
