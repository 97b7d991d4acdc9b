"""The question of APRIL (1990) and Sparcle (1993): how busy a processor is by its contexts, its run length, and the cost of a switch."""
import re
from itertools import product
from pathlib import Path

import asking
import runs
import tables
from asking import is_near, lines_of, percent, spread, statement, told_ratios

SOURCE = Path(__file__).resolve().parent / 'contexts.s'
CONTEXTS, LENGTHS, SWITCHES = (1, 2, 3, 4), (10, 20, 40, 80), (4, 11, 16)
# Turns from one load to the next besides those that work, and the case that is tried with neighbouring costs.
OTHERS, TRIED = 5, 20


def source_of(contexts, length):
    """The program with so many contexts a node, and so many turns from one load to the next."""
    text = SOURCE.read_text().replace('.contexts 1\n', f'.contexts {contexts}\n').replace('contexts,1\n', f'contexts,{contexts}\n')
    return re.sub(r'.*! work\n', lambda work: work[0] * (length - OTHERS), text).encode()


def all_rows(study):
    """The rows by run length, cost of a switch and contexts; and with each cost changed by a cycle those of one run length, by contexts."""
    rows, beside = {}, {}
    one = asking.replace(study, seeds=study.seeds[:1])
    for contexts, length in product(CONTEXTS, LENGTHS):
        name, image = f'contexts-{contexts}-{length}', runs.asked(study.binary, ['asm'], source_of(contexts, length))
        for row in study.rows(name, image, switch=SWITCHES):
            rows.setdefault((length, int(row['switch'])), {}).setdefault(contexts, []).append(row)
        for at, costs in enumerate(asking.neighbours() if length == TRIED else ()):
            beside.setdefault(at, {})[contexts] = one.rows(f'{name}-beside-{at}', image, **costs)
    return rows, beside


def utilization(rows):
    """The share of cycles that are turns, over the runs."""
    return spread(rows, 'turn_share')


def bounds(groups, contexts, more=0):
    """What the formula says of so many contexts, by the run length and the latency of a run with one, and more cycles than that: the share that grows
    with them, and the greatest."""
    one = groups[1][0]
    latency, turn = tables.value_of(one, 'latency') + more, int(one['hit'])
    length = turn * int(one['turns']) / int(one['accesses'])
    return contexts * length / (length + latency), length / (length + turn + int(one['switch']))


def formula(groups, contexts):
    """The utilization by the formula."""
    return min(bounds(groups, contexts))


def over(groups, contexts):
    """The utilization of each run over that of the formula."""
    return [tables.value_of(row, 'turn_share') / formula(groups, contexts) for row in groups[contexts]]


def table_of(rows):
    """Utilization by contexts, and in brackets that of the formula."""
    made = [(str(length), str(switch), *(f'{percent(utilization(groups[contexts]).median)} ({percent(formula(groups, contexts))})' for contexts in CONTEXTS))
            for (length, switch), groups in sorted(rows.items())]
    return lines_of(('run length', 'switch', *(f'C = {contexts}' for contexts in CONTEXTS)), made, 0)


def statements(rows, beside):
    """What the papers say of contexts."""
    every = [*rows.values(), *beside.values()]
    full = [ratio for groups in every for contexts in CONTEXTS if bounds(groups, contexts)[0] >= 1.5 * bounds(groups, contexts)[1] for ratio in over(groups, contexts)]
    part = [ratio for groups in every for contexts in CONTEXTS[1:] if bounds(groups, contexts)[0] <= bounds(groups, contexts)[1] for ratio in over(groups, contexts)]
    edge = [ratio for groups in every for contexts in CONTEXTS if 1 < bounds(groups, contexts)[0] / bounds(groups, contexts)[1] < 1.5 for ratio in over(groups, contexts)]
    also = f'with each cost a cycle less or more for a run length of {TRIED}'
    yield statement(is_near(full), 'table 8', f'with half as many contexts again as hide the latency, or more, a processor is as busy as R / (R + 1 + switch), within 5 %: '
                    f'{told_ratios(full)} times that, also {also}.')
    paid = [tables.value_of(row, 'turn_share') / min(bounds(groups, contexts, int(row['switch']))) for groups in every for contexts in CONTEXTS[1:]
            if bounds(groups, contexts)[0] <= bounds(groups, contexts)[1] for row in groups[contexts]]
    yield statement(is_near(part), 'table 8', f'with fewer than hide the latency it is as busy as C R / (R + L), within 5 %: {told_ratios(part)} times that, also {also}. Here a '
                    f'switch begins when the line has come, so that it stands behind the latency: of C R / (R + L + switch) it is {told_ratios(paid)} times.')
    yield statement(is_near(edge), 'table 8', f'so it is between the two, where the formula bends: {told_ratios(edge)} times.')
    more = [tables.value_of(b, 'turn_share') / tables.value_of(a, 'turn_share') for groups in every for n in CONTEXTS[1:-1] for a, b in zip(groups[n], groups[n + 1])]
    yield statement(min(more) >= 0.95, 'table 8', f'another context does no harm, within 5 %: {min(more):.3f} times the utilization at least, from two contexts on, also {also}.')


def answer(study):
    """The blocks of this question."""
    rows, beside = all_rows(study)
    main, others = ([row for groups in found.values() for group in groups.values() for row in group] for found in (rows, beside))
    blocks = {'contexts': table_of(rows), 'multithreading': ''.join(statements(rows, beside))}
    return asking.Answer(blocks, {}, study.told(len(main) + len(others), (64,)), main)
