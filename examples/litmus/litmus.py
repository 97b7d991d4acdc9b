"""Litmus tests: shapes read from a table, the outcomes that turns on one memory allow, and SPARC sources.

A shape is a few threads of a few statements on shared words. Its outcomes are found by a little interpreter of its own, which
takes the threads' statements one at a time in every order. A source runs the same statements on the machine, in a placement:
which context runs which thread, where the words lie, and what the machine does besides.
"""
import random
import re
from collections import namedtuple

from alewife import LINE_BYTES, SHARED, WORD

PLACES = ('x', 'y', 'z')
PAUSES = (0, 0, 0, 1, 2, 5, 15)
LEADS = (0, 0, 3, 10, 30)

Statement = namedtuple('Statement', 'text kind place name value')
Shape = namedtuple('Shape', 'name about threads never')
Placement = namedtuple('Placement', 'name about slots stride warm always options')

PLACEMENTS = (
    Placement('nodes', 'a node a thread', 1, LINE_BYTES, False, False, ()),
    Placement('copies', 'a node a thread; each has copies of all words before it begins', 1, LINE_BYTES, True, False, ()),
    Placement('one-line', 'a node a thread, all words in one line, with copies', 1, WORD, True, False, ()),
    Placement('contexts', 'contexts of one node', 4, LINE_BYTES, False, False, ()),
    Placement('pairs', 'two contexts a node, with copies', 2, LINE_BYTES, True, False, ()),
    Placement('one-pointer', 'with copies, and one hardware pointer a line: the trap handler keeps the others',
              1, LINE_BYTES, True, False, ('--pointers', '1')),
    Placement('always-trap', 'with copies, and each message to a home traps', 1, LINE_BYTES, True, True, ()),
    Placement('evictions', 'with copies, and caches that drop lines at any time', 1, LINE_BYTES, True, False, ('--evict', '100')),
    Placement('one-set', 'with copies, and all words share a set of the cache', 1, 4 * LINE_BYTES, True, False, ('--sets', '4')),
)

FORMS = (
    ('store', re.compile(r'(?P<place>[xyz]) = (?P<value>\d+)')),
    ('load', re.compile(r'(?P<name>\w+) = (?P<place>[xyz])')),
    ('swap', re.compile(r'(?P<name>\w+) = swap (?P<place>[xyz]) (?P<value>\d+)')),
    ('ldstub', re.compile(r'(?P<name>\w+) = ldstub (?P<place>[xyz])')),
)


class TableError(Exception):
    """A line of the table that isn't of its form."""


# ---- the table


def read_statement(text, number):
    """A statement of a thread."""
    for kind, form in FORMS:
        match = form.fullmatch(text)
        if match:
            parts = match.groupdict()
            value = int(parts.get('value') or 0)
            if value > 254:
                raise TableError(f'line {number}: a value above 254, {value}')
            return Statement(text, kind, parts['place'], parts.get('name'), value)
    raise TableError(f"line {number}: no statement, '{text}'")


def read_outcome(text, number):
    """Names with their values, as 'a=0 b=1'."""
    if not re.fullmatch(r'\w+=\d+( \w+=\d+)*', text):
        raise TableError(f"line {number}: no outcome, '{text}'")
    return {name: int(value) for name, value in (part.split('=') for part in text.split())}


def read_shapes(text):
    """The shapes of a table, in order."""
    shapes = []
    for number, line in enumerate(text.splitlines(), 1):
        line = line.strip()
        head = re.fullmatch(r'(\S+): (.*)', line)
        if not line or line.startswith('#'):
            continue
        if head:
            shapes.append(Shape(head[1], head[2], [], {}))
        elif not shapes:
            raise TableError(f'line {number}: it belongs to no shape')
        elif line.startswith('never '):
            shapes[-1].never.update(read_outcome(line[len('never '):], number))
        else:
            add_row(shapes[-1].threads, line, number)
    return [checked(shape) for shape in shapes]


def add_row(threads, line, number):
    """Adds a line of statements, one a thread, to the threads."""
    cells = [' '.join(cell.split()) for cell in line.split('|')]
    if not threads:
        threads.extend([] for _ in cells)
    if len(cells) != len(threads) or len(cells) > 4:
        raise TableError(f'line {number}: {len(cells)} threads; all lines of a shape have as many, and at most 4')
    for thread, cell in zip(threads, cells):
        if cell:
            thread.append(read_statement(cell, number))


def checked(shape):
    """The shape, where its threads have statements and their names differ, and where what stands behind never is told of it and
    is no allowed outcome."""
    names = names_of(shape)
    if not shape.threads or not all(1 <= len(thread) <= 8 for thread in shape.threads):
        raise TableError(f'shape {shape.name}: each of its threads has 1 to 8 statements')
    if len(names) != len(set(names)):
        raise TableError(f'shape {shape.name}: a name stands twice')
    if not shape.never or not set(shape.never) <= set(names):
        raise TableError(f'shape {shape.name}: behind never stand some of the names {", ".join(names)}')
    if any(matches(shape, outcome, shape.never) for outcome in allowed_outcomes(shape)):
        raise TableError(f'shape {shape.name}: turns on one memory give what stands behind never')
    return shape


# ---- outcomes


def names_of(shape):
    """What an outcome tells: the threads' own names in order, then the words of memory that the shape uses."""
    statements = [statement for thread in shape.threads for statement in thread]
    return [s.name for s in statements if s.name] + [place for place in PLACES if any(s.place == place for s in statements)]


def matches(shape, outcome, pattern):
    """Whether an outcome has the values of a pattern."""
    values = dict(zip(names_of(shape), outcome))
    return all(values.get(name) == value for name, value in pattern.items())


def after(values, statement):
    """The values once a statement was carried out at one stroke."""
    old, changed = values.get(statement.place, 0), dict(values)
    if statement.name:
        changed[statement.name] = old & 255 if statement.kind == 'ldstub' else old
    if statement.kind in ('store', 'swap'):
        changed[statement.place] = statement.value
    elif statement.kind == 'ldstub':
        changed[statement.place] = old | 255
    return changed


def allowed_outcomes(shape):
    """All outcomes of the threads' statements taken one at a time, in every order that keeps each thread's own."""
    outcomes, seen, names = set(), set(), names_of(shape)
    to_do = [((0,) * len(shape.threads), {})]
    while to_do:
        positions, values = to_do.pop()
        state = (positions, tuple(sorted(values.items())))
        if state in seen:
            continue
        seen.add(state)
        if all(at == len(thread) for at, thread in zip(positions, shape.threads)):
            outcomes.add(tuple(values.get(name, 0) for name in names))
        for number, (at, thread) in enumerate(zip(positions, shape.threads)):
            if at < len(thread):
                moved = positions[:number] + (at + 1,) + positions[number + 1:]
                to_do.append((moved, after(values, thread[at])))
    return outcomes


# ---- sources


def nodes_of(shape, placement):
    """How many nodes a shape has in a placement."""
    return -(-len(shape.threads) // placement.slots)


def slots_of(shape, placement):
    """How many contexts a node has."""
    return min(placement.slots, len(shape.threads))


def code(text, comment=''):
    """A line of code, laid out."""
    return f'        {text:<32}! {comment}' if comment else f'        {text}'


def instruction(statement, address, register):
    """The instruction of a statement, whose word is at the address in one register, and whose value is in another."""
    return {
        'store': f'st {register},[{address}]',
        'load': f'ld [{address}],{register}',
        'swap': f'swap [{address}],{register}',
        'ldstub': f'ldstub [{address}+3],{register}',
    }[statement.kind]


def thread_lines(number, thread, placement, addresses, pauses):
    """The code of a thread: addresses and values into registers, copies, the statements after pauses, and what it prints."""
    registers = {place: f'%l{index}' for index, place in enumerate(addresses)}
    lines = [code(f'set {address:#010x},{registers[place]}', place) for place, address in addresses.items()]
    lines += [code(f'mov {statement.value},%i{index}') for index, statement in enumerate(thread) if statement.kind in ('store', 'swap')]
    if placement.warm:
        lines += [code(f'ld [{register}],%g1', f'a copy of {place}') for place, register in registers.items()]
    for index, statement in enumerate(thread):
        lines += [code('nop')] * pauses[index]
        lines.append(code(instruction(statement, registers[statement.place], f'%i{index}'), statement.text))
    for index, statement in enumerate(thread):
        if statement.name:
            lines += [code(f'mov %i{index},%o0'), code('ta 1', f'print {statement.name}')]
    return [f'thread{number}:'] + lines + [code('ta 0')]


def drawn_pauses(shape, draws):
    """How many instructions each thread lets pass before each of its statements: the threads begin in a drawn order, some way apart."""
    lead, order = draws.choice(LEADS), draws.sample(range(len(shape.threads)), len(shape.threads))
    pauses = [[draws.choice(PAUSES) for _ in thread] for thread in shape.threads]
    for late, number in enumerate(order):
        pauses[number][0] += late * lead
    return pauses


def no_pauses(shape):
    """No pause before any statement."""
    return [[0] * len(thread) for thread in shape.threads]


def source(shape, placement, number=None):
    """The SPARC source of a shape in a placement. From its number is drawn how long a thread pauses before each statement: without one it doesn't."""
    pauses = no_pauses(shape) if number is None else drawn_pauses(shape, random.Random(f'{shape.name} {placement.name} {number}'))
    addresses = {name: SHARED + PLACES.index(name) * placement.stride for name in names_of(shape) if name in PLACES}
    last_line, nodes = (max(addresses.values()) - SHARED) // LINE_BYTES, nodes_of(shape, placement)
    lines = [f'! {shape.name}: {shape.about}', f'! {placement.name}: {placement.about}', code(f'.mesh {nodes},1'),
             code(f'.contexts {slots_of(shape, placement)}'), code(f'.lines {last_line // nodes + 1}')]
    for thread in range(len(shape.threads)):
        lines.append(code(f'.start {thread // placement.slots},{thread % placement.slots},thread{thread}'))
    lines += [code(f'.always {line}') for line in range(last_line + 1) if placement.always]
    for index, (thread, own) in enumerate(zip(shape.threads, pauses)):
        lines += thread_lines(index, thread, placement, addresses, own)
    return '\n'.join(lines) + '\n'


def outcome_of(shape, placement, run):
    """The outcome of a run, from the object that `run --write json` gives of it."""
    printed, memory, values = {}, dict(run['memory']), []
    for context, word in run['prints']:
        printed.setdefault(context, []).append(word)
    for number in range(len(shape.threads)):
        node, slot = divmod(number, placement.slots)
        values += printed.get(node * slots_of(shape, placement) + slot, [])
    places = [name for name in names_of(shape) if name in PLACES]
    return tuple(values + [memory.get(SHARED + PLACES.index(place) * placement.stride, 0) for place in places])
