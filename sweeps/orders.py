"""A question that legal journals make: how many cycles the schedules of seeds take, each timed as it is, beside the schedule in order of time."""
import json
from itertools import product

import asking
import runs
import tables
import times
from alewife import limit_of, prints_of
from asking import compiled, lines_of, statement, told_ratios

KERNELS, NODES, SEEDS = {'weather': {'SHARED': 'WIDE'}, 'jacobi': {}, 'radix': {}}, 16, range(20)
LINES = 64


def words_of(costs):
    """The words of some costs."""
    return [word for name, (value,) in costs.items() for word in (f'--{name}', str(value))]


def cycles_of(text):
    """The cycles that an account has. Refuses one of a run that didn't halt."""
    told = times.times_of(text)
    if not told or told['ended'] != 'halted':
        raise runs.SweepError(f'a run by a seed has no account of cycles, or came to an end before it halted: {text[:200]}')
    return int(told['cycles'])


def trace_of(study, data, seed):
    """The trace of a run by a seed."""
    return runs.asked(study.binary, ['run', '--seed', str(seed), '--limit', str(limit_of(NODES)), '--write', 'trace'], data)


def check_prints(study, data, traces, name):
    """Refuses runs that print other words than the timed one, which no schedule of these kernels does."""
    wanted = prints_of(json.loads(study.text(data, 'run', '--cycles', '0', '--limit', str(asking.LIMIT), '--write', 'json')))
    for seed, trace in zip(SEEDS, traces):
        if prints_of(json.loads(runs.asked(study.binary, ['replay', '--write', 'json'], trace))) != wanted:
            raise runs.SweepError(f'{name} prints other words by seed {seed} than in order of time')


def asked(study, kernel, defines):
    """Of a kernel the rows of timed runs by all seeds, the cycles of the schedules of seeds, and with each cost a cycle less or more the rows of timed runs
    and the quotients of both."""
    data = compiled(asking.KERNELS / f'{kernel}.c', NODES, LINES, **defines)
    timed = study.rows(f'orders-{kernel}', data)
    traces = asking.in_turn(study, lambda seed: trace_of(study, data, seed), SEEDS)
    check_prints(study, data, traces, kernel)

    def retimed(each):
        """The cycles of a trace by some costs."""
        trace, costs = each
        return cycles_of(runs.asked(study.binary, ['time', *words_of(costs), '--write', 'cycles'], trace).decode())
    seeded = asking.in_turn(study, retimed, [(trace, {}) for trace in traces])
    one = asking.replace(study, seeds=study.seeds[:1])
    beside = [row for at, costs in enumerate(asking.neighbours()) for row in one.rows(f'orders-{kernel}-{at}', data, **costs)]
    few = traces[:len(study.seeds)]
    again = asking.in_turn(study, retimed, [(trace, costs) for costs, trace in product(asking.neighbours(), few)])
    return timed, seeded, beside, [cycles / int(beside[at // len(few)]['cycles']) for at, cycles in enumerate(again)]


def answer(study):
    """The blocks of this question."""
    rows, ratios, near, apart, count, audited = [], [], [], [], 0, []
    for kernel, defines in KERNELS.items():
        timed, seeded, beside, over = asked(study, kernel, defines)
        own, other = asking.spread(timed), tables.spread_of(seeded)
        rows.append((f'{kernel}-wide' if defines else kernel, tables.cell(own, by_ends=True), tables.cell(other, by_ends=True), f'{other.median / own.median:.2f}'))
        ratios += [other.lowest / own.highest, other.highest / own.lowest]
        near += over
        apart.append(other.highest / other.lowest)
        count += len(timed) + len(seeded) + len(over) + len(beside)
        audited += timed + beside
    said = statement(min(ratios + near) > 1, 'table 9', f'the schedule of each seed takes more cycles than the one in order of time: {told_ratios(ratios + near)} times as many, '
                     'also with each cost a cycle less or more by the first five seeds. All of them are legal, and print the same words.')
    said += statement(max(apart) < min(ratios), 'table 9', f'the schedules of {len(SEEDS)} seeds are nearer to each other than to that one: the slowest takes {told_ratios(apart)} '
                      f'times the cycles of the quickest, and the quickest {min(ratios):.3f} times those of the one in order of time at least.')
    return asking.Answer({'orders': lines_of(('kernel', 'in order of time', f'{len(SEEDS)} seeds', 'over'), rows), 'orders_said': said}, {},
                         f'{count} runs and timed traces on {NODES} nodes', audited)
