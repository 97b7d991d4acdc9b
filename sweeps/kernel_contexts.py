"""The question of APRIL (1990) and Sparcle (1993), asked of kernels: how busy nodes are by their contexts, with all turns and with those that work."""
import tempfile
from itertools import pairwise, product
from pathlib import Path

import asking
import cross
import idle
import tables
from alewife import Sizes
from asking import is_near, lines_of, percent, spread, statement, told_ratios

KERNELS, CONTEXTS = ('jacobi', 'fft', 'weather'), (1, 2, 3, 4)
# With so many home lines a node each context gives way by loads from lines of its own node. The function is the one in which these kernels wait.
NODES, LINES, WAITING, SEEDS = 16, 512, ('sum_of_all',), 3
HEADS = ('kernel', 'C', 'cycles', 'all turns', 'work alone', 'R', 'R / (R + 1 + switch)', 'waiting', 'seeds')


def built(kernel, contexts):
    """The image of a kernel with so many contexts a node, and its functions that wait."""
    with tempfile.TemporaryDirectory() as folder:
        elf = Path(folder, 'program.elf')
        image = cross.build([asking.KERNELS / f'{kernel}.c'], Sizes(*asking.MESHES[NODES], contexts, LINES), cross.Options(keep=elf))
        return image, idle.idle_of(elf, WAITING)


def all_rows(study):
    """The rows by kernel and contexts."""
    rows = {}
    for kernel, contexts in product(KERNELS, CONTEXTS):
        image, waiting = built(kernel, contexts)
        rows[kernel, contexts] = study.rows(f'{kernel}-contexts-{contexts}', image, idle=waiting)
    return rows


def run_length(row):
    """The turns that work, in cycles, over the misses of these."""
    return int(row['work_cycles']) / (int(row['misses']) - int(row['idle_misses']))


def bound_of(row):
    """The utilization where all latency is hidden, by the run length."""
    length = run_length(row)
    return length / (length + int(row['hit']) + int(row['switch']))


def table_of(rows):
    """A line for each kernel and number of contexts."""
    made = []
    for (kernel, contexts), group in rows.items():
        length, bound = (tables.spread_of([each(row) for row in group]).median for each in (run_length, bound_of))
        shares = [percent(spread(group, f'{name}_share').median) for name in ('turn', 'work', 'waiting')]
        made.append((kernel, str(contexts), asking.median(group), *shares[:2], tables.told(length), percent(bound), shares[2], asking.widest([group])))
    return lines_of(HEADS, made)


def steps(rows, column):
    """Of each kernel and each further context a count of a run over that with one context less, by seed."""
    for kernel, (fewer, more) in product(KERNELS, pairwise(CONTEXTS)):
        before = {row['seed']: tables.value_of(row, column) for row in rows[kernel, fewer]}
        yield from (tables.value_of(row, column) / before[row['seed']] for row in rows[kernel, more])


def statements(rows):
    """What the papers say of contexts, of programs that share and wait."""
    seeds = 'for each kernel and by all seeds'
    every, work, waiting = (list(steps(rows, f'{name}_share')) for name in ('turn', 'work', 'waiting'))
    yield statement(max(waiting) < 1, 'table 8a', f'with each further context the share of cycles in which a node does nothing is less, {seeds}: {told_ratios(waiting)} times.')
    yield statement(min(every) > 1, 'table 8a', f'it is busier with each further context, with all turns, {seeds}: {told_ratios(every)} times.')
    yield statement(min(work) > 1, 'table 8a', f'so it is by work alone: {told_ratios(work)} times. The contexts share a program of one size, whose parts end with a barrier, '
                    'and who waits there takes turns and switches each time that it looks.')
    last = [tables.value_of(row, 'work_share') / bound_of(row) for kernel in KERNELS for row in rows[kernel, CONTEXTS[-1]]]
    yield statement(is_near(last), 'table 8a', f'with four contexts a node is as busy by work as R / (R + 1 + switch), within 5 %: {told_ratios(last)} times that.')
    slower = list(steps(rows, 'cycles'))
    yield statement(max(slower) < 1, 'table 8a', f'a program is quicker with each further context, {seeds}: {told_ratios(slower)} times the cycles.')


def answer(study):
    """The blocks of this question."""
    few = asking.replace(study, seeds=study.seeds[:SEEDS])
    groups = all_rows(few)
    rows = [row for group in groups.values() for row in group]
    blocks = {'kernel_utilization': table_of(groups), 'kernel_statements': ''.join(statements(groups))}
    return asking.Answer(blocks, {}, few.told(len(rows), (NODES,)), rows)
