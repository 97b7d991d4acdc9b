"""What a run by the timed schedule takes: the words of `run --write cycles` as columns of a row."""
import re

from alewife import form_of, options_of

# The option of the timed schedule, and those that stand behind it alone.
TURNING = '--cycles'
COSTS = tuple(name for name in options_of('run', TURNING) if name not in options_of('run'))
FORM = form_of('''ALEWIFE CYCLES 1
mesh {width} {height} contexts {contexts} lines {lines}
params pointers {pointers} sets {sets} limit {limit}
costs ''' + ' '.join(f'{name} {{{name}}}' for name in COSTS) + ''' seed {seed}
ended {ended}
cycles {cycles}
accesses count {accesses} sum {access_cycles} most {access_most}
queued count {queued} sum {queued_cycles} most {queued_most}
''')
TOTALS = ('cycles', 'accesses', 'access_cycles', 'access_most', 'queued', 'queued_cycles', 'queued_most')
# What the cycles of a node are of, and what those of all nodes are called.
SPENT = {'turns': 'turn', 'misses': 'miss', 'switches': 'switch', 'handlers': 'handler', 'waiting': 'waiting', 'controller': 'controller'}
OF_NODE = re.compile(' '.join(['[0-9]+', *(f'{word} ([0-9]+)' for word in SPENT)]))
BY_NODE = re.compile(r'waits 12\n(?:(?:here|elsewhere) .*\n){12}nodes ([0-9]+)\n(.*)\nend\n', re.S)
NAMES = (*TOTALS, *(f'{name}_cycles' for name in SPENT.values()))


def times_of(text):
    """The names and numbers of an account of cycles, as texts, those by node summed; None of another text."""
    head = FORM.match(text)
    rest = head and BY_NODE.fullmatch(text, head.end())
    rows = [OF_NODE.fullmatch(line) for line in rest[2].split('\n')] if rest else []
    if not rest or len(rows) != int(rest[1]) or not all(rows):
        return None
    sums = (sum(map(int, column)) for column in zip(*(row.groups() for row in rows)))
    return head.groupdict() | {f'{name}_cycles': str(total) for name, total in zip(SPENT.values(), sums)}
