"""The question of LimitLESS Directories (1991): what few pointers cost in cycles, by the time that the handler takes, beside a full map."""
from itertools import product

import asking
import plots
import tables
from asking import by, compiled, is_near, lines_of, median, percent, ratios, spread, statement, told_ratios, widest

WAYS, KERNELS = ('wide', 'once', 'tree', 'own'), ('jacobi', 'fft', 'lu', 'radix')
POINTERS, TRAPS, FEW_TRAPS = (1, 2, 3, 4, 8, 'all'), (25, 50, 100, 150, 425), (50, 425)
HEADS = tuple(f'p = {each}' for each in POINTERS)
LINES = {4: 256, 16: 64, 64: 32}
NEAR = '5 %'


def all_rows(study):
    """The rows of the four ways on each number of nodes, of the other kernels on the most, and of those with a cost changed by a cycle."""
    weather, kernels = [], []
    for way, nodes in product(WAYS, study.nodes):
        image = compiled(asking.KERNELS / 'weather.c', nodes, LINES[nodes], SHARED=way.upper())
        weather += study.rows(f'weather-{way}-{nodes}', image, pointers=POINTERS, trap=TRAPS)
    for kernel in KERNELS:
        image = compiled(asking.KERNELS / f'{kernel}.c', study.most, LINES[study.most])
        kernels += study.rows(f'{kernel}-{study.most}', image, pointers=POINTERS, trap=FEW_TRAPS)
    image, beside = compiled(asking.KERNELS / 'weather.c', study.most, LINES[study.most], SHARED='WIDE'), {}
    for costs in asking.neighbours():
        (cost, (value,)), = costs.items()
        beside[f'{cost} {value}'] = study.rows(f'beside-{cost}-{value}', image, pointers=(1, 4, 'all'), **costs)
    return weather, kernels, beside


# ---- tables


def cycles_table(rows, *names):
    """Cycles of runs by pointers, a line for each program and the values of some other columns."""
    groups, order = by(rows, 'name', *names, 'pointers'), list(dict.fromkeys(row['name'] for row in rows))
    pointers = [each for each in map(str, POINTERS) if any(key[-1] == each for key in groups)]
    made = []
    for key in sorted(dict.fromkeys(key[:-1] for key in groups), key=lambda key: order.index(key[0])):
        cells = [groups[(*key, each)] for each in pointers]
        made.append((key[0].rpartition('-')[0], *key[1:], *map(median, cells), widest(cells)))
    return lines_of(('kernel', *names, *(f'p = {each}' for each in pointers), 'seeds'), made)


def model_of(groups, pointers, trap):
    """Of each seed the share of accesses that the handler serves, the latency that the model of the paper makes of it, and the one that is measured."""
    full = {row['seed']: tables.value_of(row, 'latency') for row in groups['all', trap]}
    for row in groups[pointers, trap]:
        share = tables.value_of(row, 'handlers', tables.Per('accesses'))
        yield share, full[row['seed']] + share * int(trap), tables.value_of(row, 'latency')


def model_table(wide):
    """Latency by pointers and trap beside the model."""
    groups = by(wide, 'pointers', 'trap')
    made = []
    for pointers, trap in ((p, t) for p in dict.fromkeys(key[0] for key in groups) for t in map(str, TRAPS) if p != 'all'):
        share, model, measured = (tables.spread_of(list(each)).median for each in zip(*model_of(groups, pointers, trap)))
        made.append((pointers, trap, percent(share), tables.told(model), tables.told(measured), f'{measured / model:.2f}'))
    return lines_of(('pointers', 'trap', 'm', 'Th + m Ts', 'latency', 'over the model'), made, 0)


def beside_table(wide, beside):
    """Cycles over those of a full map with 1 and 4 pointers, with each cost changed by a cycle."""
    def cells(group):
        """Of 1 and 4 pointers the quotients, and the cycles of a full map."""
        found = by(group, 'pointers')
        return [ratio_cell(found[(each,)], found[('all',)]) for each in ('1', '4')] + [tables.cell(spread(found[('all',)]), by_ends=True)]
    made = [('as by default', *cells(default_of(wide)))]
    made += [(costs, *cells(group)) for costs, group in beside.items()]
    return lines_of(('costs', 'p = 1 over all', 'p = 4 over all', 'cycles, all'), made)


def ratio_cell(group, other):
    """The quotients of two groups of runs in a cell: median and range."""
    found = tables.spread_of(list(ratios([group], [other])))
    return f'{found.median:.3f} ({found.lowest:.3f} to {found.highest:.3f})'


def default_of(wide):
    """The runs with costs as by default."""
    return [row for row in wide if row['trap'] == str(asking.COSTS['trap'])]


# ---- statements


def over_full(wide, pointers, trap):
    """The quotients of cycles over those of a full map, of each seed."""
    groups = by(wide, 'pointers', 'trap')
    return list(ratios([groups[pointers, trap]], [groups['all', trap]]))


def near_statements(wide, beside, others=('25', '100', '150'), table='table 1', of=''):
    """Whether four pointers are as good as a full map, with a handler of 50 cycles, by neighbouring costs if there are such runs, and by other traps. The
    program is named where there are several."""
    near = over_full(wide, '4', '50')
    groups = [by(group, 'pointers') for group in beside.values()]
    near += ratios([group[('4',)] for group in groups], [group[('all',)] for group in groups])
    also = ', and with each cost a cycle less or more' if beside else ''
    yield statement(is_near(near), 'tables 1 and 4' if beside else table, f'{of}four pointers and a handler of 50 cycles are as good as a full map, '
                    f'within {NEAR}: {told_ratios(near)} times its cycles by all seeds{also}.')
    for trap in others:
        found = over_full(wide, '4', trap)
        yield statement(is_near(found), table, f'so they are with a handler of {trap} cycles: {told_ratios(found)}.')


def few_statements(wide, beside, traps=('50', '100', '150'), table='table 1'):
    """Whether fewer pointers cost more, and whether one pointer is the worst step."""
    groups = by(wide, 'pointers', 'trap')
    steps = {trap: [spread(groups[each, trap]).median for each in ('1', '2', '4', 'all')] for trap in traps}
    falls = all(a >= b * 0.99 for each in steps.values() for a, b in zip(each, each[1:]))
    ones = [ratio for group in [default_of(wide), *beside.values()]
            for found in [by(group, 'pointers')] for ratio in ratios([found[('1',)]], [found[('all',)]])]
    also = ' and with each cost a cycle less or more' if beside else ''
    yield statement(falls and min(ones) > 1.05, 'tables 1 and 4' if beside else table, 'medians fall, or are level within 1 %, from one pointer to two, to four '
                    f'and to a full map, with handlers of {", ".join(traps[:-1])} and {traps[-1]} cycles; one pointer and 50 cycles take {told_ratios(ones)} times '
                    f'those of a full map, by all seeds{also}.')
    first = all(each[0] - each[1] > each[1] - each[2] for each in steps.values())
    yield statement(first, table, 'the worst step is the one from two pointers to one, as in the paper, whose Weather has variables with two readers: from '
                    + '; '.join(f'{tables.told(a)} to {tables.told(b)} and {tables.told(c)} with {trap}' for trap, (a, b, c, _) in steps.items())
                    + '. Here a line of cells has three readers, so that the step from two pointers to three is the one that counts.')


def model_statements(wide):
    """Whether latency is as the paper's model has it: with four pointers and the handlers of the paper's example, and else."""
    groups = by(wide, 'pointers', 'trap')
    found = {key: [measured / model for _, model, measured in model_of(groups, *key)] for key in groups if key[0] != 'all'}
    few = [ratio for (pointers, trap), each in found.items() if pointers == '4' and int(trap) <= 100 for ratio in each]
    every = [ratio for each in found.values() for ratio in each]
    yield statement(is_near(few), 'table 3', f'with four pointers and a handler of 25 to 100 cycles the latency is Th + m Ts, within {NEAR}: {told_ratios(few)} times that.')
    yield statement(is_near(every), 'table 3', f'so it is with each number of pointers and each handler: {told_ratios(every)} times. The model has no waiting: where the handler '
                    'works long and often, requests queue before it, and who asks for the line meanwhile gets BUSY.')


def program_statement(weather, study):
    """Whether a change of the program does what pointers don't."""
    groups = by([row for row in weather if row['nodes'] == str(study.most)], 'name', 'trap', 'pointers')
    found = [ratio for way, trap in product(('tree', 'own'), map(str, TRAPS))
             for ratio in ratios([groups[f'weather-{way}-{study.most}', trap, '4']], [groups[f'weather-{way}-{study.most}', trap, 'all']])]
    wide = [ratio for ratio in over_full([row for row in weather if row['name'] == f'weather-wide-{study.most}'], '4', '425')]
    return statement(max(found) <= 1.001 and min(wide) > 1.05, 'table 1', 'where no variable is read by all (*tree*, *own*), four pointers take the cycles of a full map by each '
                     f'handler, {told_ratios(found)} times; *wide* takes {told_ratios(wide)} times with a handler of 425. So a change of the program gives what pointers '
                     'and a quick handler give.')


def kernels_statement(kernels):
    """Whether the other kernels do with four pointers."""
    groups = by(kernels, 'name', 'trap', 'pointers')
    made = []
    for trap in map(str, FEW_TRAPS):
        found = {name: list(ratios([group], [groups[name, trap, 'all']])) for (name, each, pointers), group in groups.items() if (each, pointers) == (trap, '4')}
        told = ', '.join(f'*{name.split("-")[0]}* {told_ratios(each)}' for name, each in found.items())
        made.append(statement(all(map(is_near, found.values())), 'table 2', f'with four pointers and a handler of {trap} cycles the other kernels take the cycles of a '
                              f'full map, within {NEAR}: {told}.'))
    return ''.join(made)


# ---- the question


def picture(wide):
    """Cycles by trap, a line for each number of pointers."""
    rows = [{**row, 'pointers': f'p = {asking.named(row)}'} for row in wide]
    order = tuple(each for each in HEADS if any(row['pointers'] == each for row in rows))
    return plots.picture(tables.in_order(tables.grouped(rows, 'trap', 'pointers'), list(order)), 'trap', ['cycles'], plots.Look(order=order))


def answer(study):
    """The blocks and the picture of this question."""
    weather, kernels, beside = all_rows(study)
    wide = [row for row in weather if row['name'] == f'weather-wide-{study.most}']
    said = ''.join([*near_statements(wide, beside), *few_statements(wide, beside), *model_statements(wide), program_statement(weather, study),
                    kernels_statement(kernels)])
    said += statement(None, '', 'the directory of few pointers and no handler, in which a reader drives another one out (Dir4NB): the machine has none.')
    blocks = {'weather': cycles_table(weather, 'nodes', 'trap'), 'kernels': cycles_table(kernels, 'trap'), 'model': model_table(wide),
              'beside': beside_table(wide, beside), 'limitless': said}
    return asking.Answer(blocks, {'papers-trap.svg': picture(wide)}, study.told(sum(map(len, (weather, kernels, *beside.values())))), weather)
