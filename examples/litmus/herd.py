"""Litmus tests in C as herd7 reads them: a small grammar, and the tree of a test.

A test has a name, an initial state, threads of statements on shared words, and a condition on its final states. Loads, stores and exchanges have
any order of C, for the machine has one for all; a fence is nothing. An expression is a tuple: ('number', n), ('name', r), ('load', x),
('exchange', x, e) or (operator, e, e). A statement is ('let', r, e), ('store', x, e), ('do', e), or ('if', e, statements, statements).
"""
import re
from dataclasses import dataclass, field

TOKEN = re.compile(r'\s*(?:(?P<name>[A-Za-z_]\w*)|(?P<number>0[xX][0-9a-fA-F]+|[0-9]+)|(?P<text>"[^"]*")|(?P<sign>/\\|\\/|==|!=|<>|[^\sA-Za-z_0-9]))')
COMMENT = re.compile(r'\(\*.*?\*\)|/\*.*?\*/|//[^\n]*', re.S)
TYPES = {'int', 'long', 'unsigned', 'atomic_int', 'int32_t', 'uint32_t', 'volatile', 'const', 'signed', 'atomic_uint', '_Atomic'}
FENCES = {'atomic_thread_fence', 'atomic_signal_fence', 'smp_mb', 'smp_rmb', 'smp_wmb', 'barrier'}
LOADS = {'atomic_load', 'atomic_load_explicit', 'READ_ONCE', 'smp_load_acquire'}
STORES = {'atomic_store', 'atomic_store_explicit', 'WRITE_ONCE', 'smp_store_release', 'atomic_init'}
EXCHANGES = {'atomic_exchange', 'atomic_exchange_explicit', 'xchg'}
OPERATORS = ('==', '!=', '|', '^', '&', '+', '-')
QUANTIFIERS = {'exists': 'Allowed', '~exists': 'Forbidden', 'forall': 'Required'}


class LitmusError(Exception):
    """A litmus test that isn't read, with the line at which it stops."""


@dataclass
class Test:
    """A test: its name, the first values of words and of registers by (thread, name), its threads, what is told of a final state, its condition as
    a quantifier and a tree, and the condition's text."""
    name: str
    words: dict = field(default_factory=dict)
    registers: dict = field(default_factory=dict)
    threads: list = field(default_factory=list)
    told: list = field(default_factory=list)
    quantifier: str = ''
    condition: tuple = ()
    text: str = ''


class Tokens:
    """The tokens of a text, taken one after the other."""

    def __init__(self, text):
        self.source = COMMENT.sub(lambda match: re.sub(r'[^\n]', ' ', match[0]), text)
        self.tokens, at = [], 0
        while match := TOKEN.match(self.source, at):
            self.tokens.append((match[match.lastgroup], match.lastgroup, match.start(match.lastgroup)))
            at = match.end()
        self.at = 0

    @property
    def next(self):
        """The next token, nothing behind the last one."""
        return self.tokens[self.at][0] if self.at < len(self.tokens) else ''

    def ahead(self, count):
        """A token further on."""
        return self.tokens[self.at + count][0] if self.at + count < len(self.tokens) else ''

    def wrong(self, wanted):
        """The fault that something else was wanted here."""
        place = self.tokens[self.at][2] if self.at < len(self.tokens) else len(self.source)
        return LitmusError(f'line {self.source.count(chr(10), 0, place) + 1}: {wanted} is wanted, and not {self.next or "the end"}')

    def take(self, *wanted):
        """Takes the next token, which has to be one of these."""
        if self.next not in wanted:
            raise self.wrong(' or '.join(wanted))
        self.at += 1
        return wanted[0] if len(wanted) == 1 else self.tokens[self.at - 1][0]

    def has(self, wanted):
        """Takes the next token where it is this one."""
        found = self.next == wanted
        self.at += found
        return found

    def kind(self, kind, what):
        """Takes a token of a kind."""
        if self.at >= len(self.tokens) or self.tokens[self.at][1] != kind:
            raise self.wrong(what)
        self.at += 1
        return self.tokens[self.at - 1][0]

    def name(self):
        """Takes a name."""
        return self.kind('name', 'a name')

    def number(self):
        """Takes a number, of which a word has 32 bits."""
        sign = -1 if self.has('-') else 1
        value = sign * int(self.kind('number', 'a number'), 0)
        if not -1 << 31 <= value < 1 << 32:
            raise LitmusError(f'{value} is no number of 32 bits')
        return value % (1 << 32)


# ---- the initial state


def read_type(tokens):
    """Takes the words of a type and its stars: whether there were any."""
    begin = tokens.at
    while tokens.next in TYPES or tokens.at > begin and tokens.next == '*':
        tokens.at += 1
    return tokens.at > begin


def read_place(tokens, thread=None):
    """A place of a state: a word as x, [x] or *x, or a register as 0:r0. A word is (None, name)."""
    if tokens.has('['):
        place = (None, tokens.name())
        tokens.take(']')
        return place
    if tokens.has('*'):
        return None, tokens.name()
    if re.fullmatch(r'[0-9]+', tokens.next) and tokens.ahead(1) == ':':
        thread = int(tokens.kind('number', 'a thread'))
        tokens.take(':')
    return thread, tokens.name()


def read_state(tokens, test):
    """The initial state."""
    tokens.take('{')
    while not tokens.has('}'):
        read_type(tokens)
        thread, name = read_place(tokens)
        value = tokens.number() if tokens.has('=') else 0
        (test.words if thread is None else test.registers)[name if thread is None else (thread, name)] = value
        if tokens.next != '}':
            tokens.take(';')


# ---- threads


class Thread:
    """A thread that is read: its tokens, and the words that it is told of."""

    def __init__(self, tokens, words):
        self.tokens, self.words = tokens, words

    def word(self):
        """A word, as x, *x or &x."""
        if self.tokens.next in ('*', '&'):
            self.tokens.at += 1
        name = self.tokens.name()
        if name not in self.words:
            raise LitmusError(f'{name} is no word that the thread is told of')
        return name

    def call(self):
        """A load or an exchange, by its name."""
        kind = self.tokens.name()
        self.tokens.take('(')
        word = self.word()
        if kind in EXCHANGES:
            self.tokens.take(',')
            return self.closed(('exchange', word, self.expression()))
        return self.closed(('load', word))

    def closed(self, made):
        """What was made, behind what a call says of orders."""
        if self.tokens.has(','):
            self.tokens.name()
        self.tokens.take(')')
        return made

    def primary(self):
        """A number, a register, a load, an exchange, or an expression in brackets, which a type may stand before."""
        tokens = self.tokens
        if tokens.next in LOADS | EXCHANGES:
            return self.call()
        if tokens.next == '*':
            return 'load', self.word()
        if tokens.has('('):
            cast = read_type(tokens)
            made = None if cast else self.expression()
            tokens.take(')')
            return self.primary() if cast else made
        if re.fullmatch(r'[0-9]\w*|-', tokens.next):
            return 'number', tokens.number()
        name = tokens.name()
        if tokens.next == '(':
            raise LitmusError(f'{name} is none of the calls that are known: loads, stores, exchanges and fences')
        return ('load' if name in self.words else 'name'), name

    def expression(self, level=0):
        """An expression: of operators, those that bind least first."""
        if level == len(OPERATORS):
            return self.primary()
        made = self.expression(level + 1)
        while self.tokens.has(OPERATORS[level]):
            made = OPERATORS[level], made, self.expression(level + 1)
        return made

    def block(self):
        """A statement, or several in braces."""
        if not self.tokens.has('{'):
            return self.statement()
        made = []
        while not self.tokens.has('}'):
            made += self.statement()
        return made

    def statement(self):
        """The statements of one of C."""
        tokens = self.tokens
        if tokens.has(';'):
            return []
        if tokens.has('if'):
            tokens.take('(')
            test = self.expression()
            tokens.take(')')
            return [('if', test, self.block(), self.block() if tokens.has('else') else [])]
        made = self.simple()
        tokens.take(';')
        return made

    def simple(self):
        """A store, a fence, a declaration, an assignment, or an exchange whose value isn't kept."""
        tokens = self.tokens
        if tokens.next in STORES:
            tokens.name()
            tokens.take('(')
            word = self.word()
            tokens.take(',')
            return [self.closed(('store', word, self.expression()))]
        if tokens.next in FENCES:
            while not tokens.has(')'):
                tokens.at += 1
                if not tokens.next:
                    raise tokens.wrong(')')
            return []
        if tokens.next in EXCHANGES | LOADS:
            return [('do', self.call())]
        declared = read_type(tokens)
        if tokens.next == '*' or tokens.next in self.words and not declared:
            word = self.word()
            tokens.take('=')
            return [('store', word, self.expression())]
        name = tokens.name()
        if tokens.next not in ('=', ';'):
            raise tokens.wrong('= or ;')
        return [('let', name, self.expression() if tokens.has('=') else ('number', 0))]


def read_thread(tokens, test):
    """A thread, `P0 (atomic_int* x) { .. }`."""
    tokens.take(f'P{len(test.threads)}')
    tokens.take('(')
    words = []
    while not tokens.has(')'):
        if not read_type(tokens):
            raise tokens.wrong('a type')
        words.append(tokens.name())
        if tokens.next != ')':
            tokens.take(',')
    for name in words:
        test.words.setdefault(name, 0)
    tokens.take('{')
    tokens.at -= 1
    test.threads.append(Thread(tokens, words).block())


# ---- conditions


def read_atom(tokens, test):
    """An atom of a condition, as 0:r0=1 or [x]=2."""
    if tokens.has('~') or tokens.has('not'):
        return 'not', read_atom(tokens, test)
    if tokens.has('('):
        made = read_condition(tokens, test)
        tokens.take(')')
        return made
    if tokens.next in ('true', 'false'):
        return 'constant', tokens.name() == 'true'
    place = read_place(tokens)
    is_equal = tokens.take('=', '==', '!=', '<>') in ('=', '==')
    known_place(test, place)
    atom = ('is', place, tokens.number())
    return atom if is_equal else ('not', atom)


def known_place(test, place):
    """Keeps a place to tell of."""
    thread, name = place
    if thread is None and name not in test.words or thread is not None and thread >= len(test.threads):
        raise LitmusError(f'{name if thread is None else f"{thread}:{name}"} is no place of the test')
    if place not in test.told:
        test.told.append(place)


def read_condition(tokens, test):
    """A condition: parts joined by or, of atoms joined by and."""
    made = read_conjunction(tokens, test)
    while tokens.has('\\/'):
        made = 'or', made, read_conjunction(tokens, test)
    return made


def read_conjunction(tokens, test):
    """Atoms joined by and."""
    made = read_atom(tokens, test)
    while tokens.has('/\\'):
        made = 'and', made, read_atom(tokens, test)
    return made


def read_final(tokens, test):
    """What is told of final states, and the condition."""
    if tokens.has('locations'):
        tokens.take('[')
        while not tokens.has(']'):
            known_place(test, read_place(tokens))
            if tokens.next != ']':
                tokens.take(';')
    test.quantifier = '~' * tokens.has('~') + tokens.take('exists', 'forall')
    begin = tokens.tokens[tokens.at][2] if tokens.next else 0
    test.condition = read_condition(tokens, test)
    if tokens.next:
        raise tokens.wrong('the end')
    test.text = ' '.join(tokens.source[begin:].split())
    test.told.sort(key=lambda place: (place[0] is None, place))


def read_test(text):
    """The test of a file."""
    head, _, rest = COMMENT.sub(lambda match: re.sub(r'[^\n]', ' ', match[0]), text).lstrip().partition('\n')
    form = re.fullmatch(r'C\s+(\S+)\s*', head)
    if not form:
        raise LitmusError('line 1: a test in C begins with C and its name')
    test, tokens = Test(form[1]), Tokens('\n' * (text[:len(text) - len(text.lstrip())].count('\n') + 1) + rest)
    while tokens.next and tokens.next != '{':
        tokens.at += 1
    read_state(tokens, test)
    while re.fullmatch('P[0-9]+', tokens.next):
        read_thread(tokens, test)
    if not test.threads:
        raise tokens.wrong('P0')
    read_final(tokens, test)
    return test


def holds(condition, values):
    """Whether a condition holds of the values of places."""
    kind, *parts = condition
    if kind == 'is':
        return values[parts[0]] == parts[1]
    if kind == 'constant':
        return parts[0]
    if kind == 'not':
        return not holds(parts[0], values)
    return (all if kind == 'and' else any)(holds(part, values) for part in parts)
