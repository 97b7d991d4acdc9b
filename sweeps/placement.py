"""What it is worth where variables lie: locks, barriers and a kernel whose variables lie one behind another, and spread over the homes."""
from itertools import product

import asking
import tables
from asking import compiled, lines_of, median, statement, told_ratios, widest
from contention import BARRIERS, CALLED, LOCKS, ROUNDS, TIMES, barrier_of, lock_of, rows_of

FEW, NODES = 16, 64
LINES, SPREAD, SPREAD_LINES = (32, 64, 128), 'spread', 100
KERNEL = 'queue'
# What is asked, and on how many nodes; what waits on elements of its own; and what is tried with each cost changed by a cycle.
PROGRAMS = (*product(('TREE', 'DISSEMINATION'), (FEW, NODES)), ('MCS', NODES), (KERNEL, NODES), ('CLH', NODES))
LOCAL = tuple(each for each in PROGRAMS if each[0] in ('MCS', 'TREE', 'DISSEMINATION', KERNEL))
TRIED = ('DISSEMINATION', FEW)


def image_of(name, nodes, lines):
    """The image of a program on so many nodes with so many lines each, or with variables that are spread."""
    spread, count = lines == SPREAD, SPREAD_LINES if lines == SPREAD else lines
    if name in LOCKS:
        return lock_of(name, nodes, count, spread)
    if name in BARRIERS:
        return barrier_of(name, nodes, count, spread)
    return compiled(asking.KERNELS / f'{name}.c', nodes, count, spread=spread)


def all_rows(study):
    """The rows by program, nodes and lines a node, where variables lie one behind another, or SPREAD; and with each cost changed by a cycle those of some
    programs with the fewest lines, and spread."""
    rows, beside = {}, {}
    for (name, nodes), lines in product(PROGRAMS, (*LINES, SPREAD)):
        is_tried = (name, nodes) == TRIED and lines in (LINES[0], SPREAD)
        rows[name, nodes, lines], near = rows_of(study, f'placement-{name.lower()}-{nodes}-{lines}', image_of(name, nodes, lines), is_tried)
        if near:
            beside[name, nodes, lines] = near
    return rows, beside


def per_of(name, nodes):
    """What cycles are told for: an acquisition by each context, a round of all, or the kernel's whole run."""
    return tables.Per(str(TIMES * nodes)) if name in LOCKS else tables.Per(str(ROUNDS)) if name in BARRIERS else None


def called(name, nodes):
    """What a program is called in a statement."""
    return f'{CALLED.get(name, f"*{name}*")} on {nodes} nodes'


def table_of(rows):
    """Cycles by program and by where variables lie."""
    made = []
    for name, nodes in PROGRAMS:
        groups = [rows[name, nodes, lines] for lines in (*LINES, SPREAD)]
        made.append((CALLED.get(name, f'*{name}*'), str(nodes), *(median(group, 'cycles', per_of(name, nodes)) for group in groups), widest(groups)))
    return lines_of(('program', 'nodes', *(f'{lines} lines' for lines in LINES), SPREAD, 'seeds'), made)


def over(rows, program, first, second):
    """The quotients of a program's cycles by where its variables lie, run by run."""
    return [int(a['cycles']) / int(b['cycles']) for a, b in zip(rows[(*program, first)], rows[(*program, second)], strict=True)]


def statements(rows, beside):
    """What is said of places."""
    both = {key: group + beside.get(key, []) for key, group in rows.items()}
    fewer = {program: over(rows, program, LINES[-1], LINES[0]) for program in PROGRAMS}
    crowded = {program: fewer[program] for program in PROGRAMS if program[0] in BARRIERS and program[1] == NODES}
    half = over(rows, TRIED, LINES[1], LINES[0])
    yield statement(min(map(min, [*crowded.values(), half])) > 1.05, 'table 12', 'a barrier takes longer where fewer homes have its words: with 128 lines a node '
                    + told_each(crowded) + f' as long as with 32, and {called(*TRIED)} with 64 lines {told_ratios(half)} times.')
    queues = {program: fewer[program] for program in PROGRAMS if program[0] not in BARRIERS}
    yield statement(min(map(min, queues.values())) > 1.05, 'table 12', 'so does what waits for a lock with a queue: ' + told_each(queues)
                    + ' as long with 128 lines. Behind a lock one context acts after another, and its home has little to do.')
    quicker = {program: over(both, program, SPREAD, LINES[0]) for program in LOCAL}
    yield statement(max(map(max, quicker.values())) < 1, 'table 12', 'who waits on an element of its own is quicker where that lies at its own home: '
                    + told_each(quicker) + f' as long as with 32 lines a node, by all seeds, and {called(*TRIED)} with each cost a cycle less or more.')
    others = {program: over(rows, program, SPREAD, LINES[0]) for program in PROGRAMS if program not in LOCAL}
    yield statement(max(map(max, others.values())) <= 1.05, 'table 12', 'who waits elsewhere is no slower by that, within 5 %: ' + told_each(others)
                    + '. In CLH a context takes over the line of the one before, so that soon nobody waits at its own home.')


def told_each(found):
    """The range of the quotients of each program, in words."""
    return ', '.join(f'{told_ratios(ratios)} times ({called(*program)})' for program, ratios in found.items())


def answer(study):
    """The blocks of this question."""
    rows, beside = all_rows(study)
    count = sum(len(group) for each in (rows, beside) for group in each.values())
    return asking.Answer({'places': table_of(rows), 'placement': ''.join(statements(rows, beside))}, {}, study.told(count, (FEW, NODES)),
                         [row for group in rows.values() for row in group])
