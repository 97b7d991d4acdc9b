"""The question of LimitLESS Directories (1991) on 256 nodes: what few pointers cost there, by fewer handlers, pointers and seeds. Runs of weather have
more turns than a claim may have, so that jacobi's alone are audited."""
import asking
import limitless
from asking import by, compiled

NODES, LINES, POINTERS, TRAPS = 256, 32, (1, 2, 4, 'all'), (50, 100, 425)
SAID = 'weather-wide', 'jacobi'


def images():
    """Each program by its name: weather in its ways, and jacobi."""
    yield from ((f'weather-{way}', compiled(asking.KERNELS / 'weather.c', NODES, LINES, SHARED=way.upper())) for way in limitless.WAYS)
    yield 'jacobi', compiled(asking.KERNELS / 'jacobi.c', NODES, LINES)


def statements(rows):
    """What is said of weather in its first way, and of jacobi."""
    groups, traps = by(rows, 'name'), tuple(map(str, TRAPS))
    for name in SAID:
        group = groups[(f'{name}-{NODES}',)]
        yield from limitless.near_statements(group, {}, traps[1:], 'table 4a', f'of *{name}* ')
        yield next(limitless.few_statements(group, {}, traps, 'table 4a'))


def answer(study):
    """The blocks of this question, by the first seed."""
    few = asking.replace(study, seeds=study.seeds[:1])
    rows = [row for name, image in images() for row in few.rows(f'{name}-{NODES}', image, pointers=POINTERS, trap=TRAPS)]
    blocks = {'large_cycles': limitless.cycles_table(rows, 'trap'), 'large_statements': ''.join(statements(rows))}
    return asking.Answer(blocks, {}, few.told(len(rows), (NODES,)), by(rows, 'name')[(f'jacobi-{NODES}',)])
