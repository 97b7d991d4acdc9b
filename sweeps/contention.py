"""The questions of Anderson (1990) and of Mellor-Crummey and Scott (1991): what locks cost by those that want them, and barriers by their nodes."""
from itertools import product

import asking
import cross
import plots
import tables
from asking import compiled, lines_of, median, statement, widest

LOCKS, BARRIERS = ('TAS', 'TTAS', 'BACKOFF', 'TICKET', 'CLH', 'MCS'), ('CENTRAL', 'TREE', 'DISSEMINATION')
CALLED = {'TAS': 'test-and-set', 'TTAS': 'test-and-test-and-set', 'BACKOFF': 'test-and-set with pauses', 'TICKET': 'ticket', 'CLH': 'CLH', 'MCS': 'MCS',
          'CENTRAL': 'central', 'TREE': 'tree', 'DISSEMINATION': 'dissemination'}
QUEUES, SIMPLE = ('CLH', 'MCS'), ('TAS', 'TTAS', 'BACKOFF')
CONTEXTS, NODES, LINES = (1, 2, 4, 8, 16, 32, 64), (4, 16, 64), 32
TIMES, ROUNDS = 4, 16


def rows_of(study, name, image, beside):
    """The rows of an image by all seeds, and where the neighbours are asked for by the first one with each cost changed by a cycle."""
    rows = study.rows(name, image)
    if not beside:
        return rows, []
    one = asking.replace(study, seeds=study.seeds[:1])
    return rows, [row for at, costs in enumerate(asking.neighbours()) for row in one.rows(f'{name}-beside-{at}', image, **costs)]


def asked(study, source, kinds, numbers, beside):
    """The rows of each kind and number, and those with neighbouring costs, of some kinds with some numbers."""
    own, other = {}, {}
    for kind, number in product(kinds, numbers):
        data = image_of(source, kind, number)
        own[kind, number], near = rows_of(study, f'{source}-{kind.lower()}-{number}', data, (kind, number) in beside)
        if near:
            other[kind, number] = near
    return own, other


def image_of(source, kind, number):
    """The image of a lock for so many contexts on 64 nodes, or of a barrier on so many nodes."""
    if source == 'locks':
        return lock_of(kind, number, LINES)
    return barrier_of(kind, number, LINES)


def lock_of(kind, number, lines, spread=False):
    """The image of a lock that so many of 64 contexts take."""
    return compiled(cross.RUNTIME / 'locks.c', 64, lines, spread=spread, LOCK=kind, ACTIVE=number, TIMES=TIMES, TELLS=0)


def barrier_of(kind, nodes, lines, spread=False):
    """The image of a barrier to which all contexts of so many nodes come, with nothing between its rounds."""
    return compiled(cross.RUNTIME / 'barriers.c', nodes, lines, spread=spread, BARRIER=kind, ROUNDS=ROUNDS, LOOKS=0)


def each_table(head, own, kinds, numbers, per):
    """Cycles an acquisition or a round."""
    rows = [(CALLED[kind], *(median(own[kind, number], 'cycles', per(number)) for number in numbers), widest(own[kind, number] for number in numbers)) for kind in kinds]
    return lines_of((head, *map(str, numbers), 'seeds'), rows)


def cycles(rows, per):
    """The cycles an acquisition or a round of each run, by its seed and costs; none of a run that came to its limit is known, but that they are more."""
    return [int(row['cycles']) / per if row['ended'] == 'halted' else float('inf') for row in rows]


def least(rows, per):
    """The cycles an acquisition of each run: those until it halted, or till its limit."""
    return [int(row['cycles']) / per for row in rows]


def pairs(found, first, second):
    """The values of two kinds or numbers, run by run."""
    yield from zip(found[first], found[second], strict=True)


def told(number):
    """A quotient in words."""
    return f'{number:.1f}'


def lock_statements(own, beside):
    """What the papers say of locks."""
    both = {key: cycles(own[key] + beside.get(key, []), TIMES * key[1]) for key in own}
    each = {key: cycles(rows, TIMES * key[1]) for key, rows in own.items()}
    floor = {key: least(rows, TIMES * key[1]) for key, rows in own.items()}
    rises = all(b > a for n, m in zip(CONTEXTS[1:], CONTEXTS[2:]) for a, b in zip(each['TAS', n], floor['TAS', m], strict=True) if a < float('inf'))
    grown = min(b / a for a, b in zip(each['TAS', 2], floor['TAS', 32], strict=True))
    yield statement(rises, 'table 6', f'test-and-set takes longer the more contexts want the lock: with 32 contexts at least {told(grown)} times as long as with two. A run '
                    'that came to its limit counts with its cycles till then, and no run with more contexts is held against it.')
    better = {name: [n for n in CONTEXTS[1:] if is_quicker(each[name, n], floor[other, n])] for name, other in (('TTAS', 'TAS'), ('BACKOFF', 'TTAS'))}
    yield statement(better['TTAS'] == [*CONTEXTS[1:]], 'table 6', 'a look before the try is better from two contexts on: by all seeds with ' + listed(better['TTAS']) + ' contexts.')
    yield statement({*CONTEXTS[2:]} <= {*better['BACKOFF']}, 'table 6', 'pauses are better than a look, from four contexts on: by all seeds with ' + listed(better['BACKOFF'])
                    + ' contexts. Pauses are 16 to 4,096 rounds of three turns long.')
    flat = [b / a for name in QUEUES for a, b in pairs(both, (name, 4), (name, 64))]
    yield statement(max(flat) <= 2, 'table 6', f'a lock with a queue costs at most twice as much however many want it: with 64 contexts {told(min(flat))} to {told(max(flat))} times '
                    'what it costs with 4, by all seeds, and with each cost a cycle less or more. What is left is the way, which is longer on more nodes.')
    alone = [b / a for queue, simple in product(QUEUES, SIMPLE) for a, b in pairs(each, (simple, 1), (queue, 1))]
    yield statement(min(alone) > 1, 'table 6', f'where nobody else wants it, a lock with a queue costs more: {told(min(alone))} to {told(max(alone))} times a simple one.')
    best = [n for n in CONTEXTS if all(is_quicker(each[queue, n], floor[simple, n]) for queue, simple in product(QUEUES, SIMPLE))]
    yield statement({n for n in CONTEXTS if n >= 16} <= {*best}, 'table 6', 'from 16 contexts on it is the best: by all seeds with ' + listed(best) + ' contexts.')
    yield statement(None, '', "the ticket lock with a fetch-and-add, and Anderson's queue in an array: the machine has no fetch-and-add, and *ticket* draws its tickets behind a "
                    'test-and-test-and-set, whose cost it has.')


def is_quicker(most, floor):
    """Whether each run of one kind has fewer cycles than the run of another one by the same seed has at least."""
    return all(a < b for a, b in zip(most, floor, strict=True))


def listed(numbers):
    """Some numbers in words."""
    return ', '.join(map(str, numbers)) or 'no number of'


def barrier_statements(own, beside):
    """What the papers say of barriers."""
    each = {key: cycles(own[key] + beside.get(key, []), ROUNDS) for key in own}
    central = [b / a for a, b in pairs(each, ('CENTRAL', 16), ('CENTRAL', 64))]
    yield statement(min(central) >= 3.5, 'table 7', f'a central barrier takes a time in proportion to the nodes at least: 64 nodes {told(min(central))} to {told(max(central))} '
                    'times that of 16.')
    found = {name: [b / a for a, b in pairs(each, (name, 16), (name, 64))] for name in BARRIERS[1:]}
    yield statement(all(max(ratios) ** 2 < 1.5 * 4 for ratios in found.values()), 'table 7', 'tree and dissemination take a time nearer to the logarithm of the nodes than to '
                    'their number: 64 nodes ' + ', '.join(f'{told(min(ratios))} to {told(max(ratios))} times ({CALLED[name]})' for name, ratios in found.items())
                    + ' that of 16, where the logarithm is 1.5 times as large and the number 4 times. So it is with each cost a cycle less or more.')
    order = all(a < b < c for a, b, c in zip(each['DISSEMINATION', 64], each['TREE', 64], each['CENTRAL', 64], strict=True))
    yield statement(order, 'table 7', 'on 64 nodes dissemination is before the tree, and the tree before the central barrier, by all seeds, and with each cost a cycle less or '
                    'more.')


def picture(own, kinds, numbers, axis, per):
    """Cycles by contexts or nodes, a line for each kind, without the runs that came to their limit."""
    groups = {(CALLED[kind], str(number)): [{**row, 'number': str(number)} for row in own[kind, number]] for kind, number in product(kinds, numbers)}
    halted = {key: rows for key, rows in groups.items() if all(row['ended'] == 'halted' for row in rows)}
    return plots.picture(halted, axis, ['cycles'], plots.Look('log', True, order=tuple(CALLED[kind] for kind in kinds)), per=per)


def answer(study):
    """The blocks and the pictures of this question."""
    locks, near_locks = asked(study, 'locks', LOCKS, CONTEXTS, set(product(QUEUES, (4, 64))))
    barriers, near_barriers = asked(study, 'barriers', BARRIERS, NODES, set(product(BARRIERS, (16, 64))))
    blocks = {'locks': each_table('lock', locks, LOCKS, CONTEXTS, lambda n: tables.Per(str(TIMES * n))),
              'barriers': each_table('barrier', barriers, BARRIERS, NODES, lambda n: tables.Per(str(ROUNDS))),
              'contention': ''.join([*lock_statements(locks, near_locks), *barrier_statements(barriers, near_barriers)])}
    pictures = {'papers-locks.svg': picture(locks, LOCKS, CONTEXTS, 'contexts that want the lock', tables.Per(f'number*{TIMES}', 'cycles an acquisition')),
                'papers-barriers.svg': picture(barriers, BARRIERS, NODES, 'nodes', tables.Per(str(ROUNDS), 'cycles a round'))}
    count = sum(len(rows) for each in (locks, barriers, near_locks, near_barriers) for rows in each.values())
    return asking.Answer(blocks, pictures, study.told(count, NODES), [row for each in (locks, barriers) for rows in each.values() for row in rows])
