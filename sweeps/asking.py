"""What the questions of docs/PAPERS.md share: runs by time that are kept, the cells of tables, and statements that say whether they hold."""
from collections import namedtuple
from concurrent.futures import ThreadPoolExecutor
from dataclasses import dataclass, field, replace
from itertools import product
from pathlib import Path

import cross
import runs
import tables
import times
from alewife import MOST_TURNS, Sizes, options_of

OPTIONS = options_of('run', times.TURNING)
COSTS = {name: int(OPTIONS[name]['default']) for name in times.COSTS}
LIMIT = OPTIONS['limit']['last']
MESHES = {4: (2, 2), 16: (4, 4), 64: (8, 8), 256: (16, 16)}
SOUND = 'sound'
KERNELS = cross.ROOT / 'examples' / 'c' / 'kernels'
# What a question is answered with: blocks of the document by their names, pictures by theirs, what the tables were made of, and the rows of the main
# one.
Answer = namedtuple('Answer', 'blocks pictures told rows', defaults=((),))


@dataclass(frozen=True)
class Study:
    """How questions are asked: the program, the numbers of nodes, the seeds, how many runs are made at once, and where tables of runs are kept."""
    binary: str
    nodes: tuple
    seeds: tuple
    jobs: int
    parts: Path
    images: dict = field(default_factory=dict)

    @property
    def most(self):
        """The largest number of nodes."""
        return max(self.nodes)

    def told(self, count, nodes=()):
        """How many runs there are, on which nodes and by which seeds, in words."""
        on = ' and '.join(map(str, nodes or self.nodes))
        return f'{count:,} runs on {on} nodes, by ' + (f'seeds {min(self.seeds)} to {max(self.seeds)}' if len(self.seeds) > 1 else f'seed {self.seeds[0]}')

    def rows(self, name, data, /, idle=None, **lists):
        """The rows of an image's runs by time, kept under a name: each list is of an option, and those that aren't given are as by default. A full map
        is told as all. Turns of some functions may be told as idle."""
        digest = runs.digest_of(data)
        image = self.images[digest] = runs.Image(data, digest, name, idle)
        chosen = {each: [int(OPTIONS[each]['default'])] for each in runs.TIMED.options} | {'seed': self.seeds, 'limit': [LIMIT]} | lists
        chosen['pointers'] = dict.fromkeys(image.nodes if each == runs.ALL else each for each in chosen['pointers'])
        path = self.parts / f'{name}.csv'
        runs.sweep(path, self.binary, image, runs.TIMED, runs.runs_of(chosen, 1, 1), self.jobs)
        return tables.with_nodes(runs.gather([path])[1])

    def row(self, name, data, /, **options):
        """The row of one run by time, which isn't kept: options that aren't given are as by default."""
        image = runs.Image(data, runs.digest_of(data), name)
        self.images[image.digest] = image
        chosen = {each: OPTIONS[each]['default'] for each in runs.TIMED.options if each != 'seed'} | {'seed': 0, 'limit': LIMIT} | options
        row = runs.row_of(runs.read_program(self.binary), image, {each: str(chosen[each]) for each in runs.TIMED.options})
        return tables.with_nodes([row])[0]

    def differing(self, program, rows):
        """How rows are told otherwise by another program, which times their runs again, each in words."""
        def again(row):
            """What it says of a row's run."""
            words = [*runs.words_of(row, int(row['nodes'])), '--write', 'cycles']
            told = times.times_of(runs.asked(program, words, self.images[row['image']].data).decode()) or {}
            wrong = [name for name in times.NAMES if told.get(name) != row[name]]
            return f'{row["name"]}, {" ".join(words)}: {wrong[0]} is {row[wrong[0]]} and {told.get(wrong[0])}' if wrong else None
        return [each for each in in_turn(self, again, rows) if each]

    def audited(self, rows):
        """The rows whose runs have claims that are audited, which no run of more turns than a claim has is; and which aren't sound, each in words."""
        def fault(row):
            """What the audit says of the claim of a row's run, where that isn't sound."""
            words = [*runs.words_of(row, int(row['nodes'])), '--write', 'claim']
            said = runs.verdict_of(self.binary, runs.asked(self.binary, words, self.images[row['image']].data))
            return None if said == SOUND else f'{row["name"]}, {" ".join(words)}: audit says {said}'
        held = [row for row in rows if int(row['turns']) <= MOST_TURNS]
        return held, [each for each in in_turn(self, fault, held) if each]

    def text(self, data, *words):
        """What the program writes of an image."""
        return runs.asked(self.binary, words, data).decode()


def neighbours():
    """Lists of costs, of which each is one by default that is changed by a cycle."""
    for (cost, value), change in product(COSTS.items(), (-1, 1)):
        if value + change >= OPTIONS[cost]['first']:
            yield {cost: [value + change]}


def in_turn(study, make, each):
    """What is made of each thing, so many at once, in order."""
    with ThreadPoolExecutor(study.jobs) as pool:
        return list(pool.map(make, each))


def compiled(source, nodes, lines, contexts=1, spread=False, **defines):
    """The image of a program in C on a square of nodes, whose variables lie one behind another, or spread over the homes."""
    options = cross.Options(defines=tuple(f'{name}={value}' for name, value in defines.items()), spread=spread)
    return cross.build([source], Sizes(*MESHES[nodes], contexts, lines), options)


# ---- cells


def named(row):
    """What a row's number of pointers is called: a full map is all."""
    return runs.ALL if row['pointers'] == row['nodes'] else row['pointers']


def by(rows, *columns):
    """The rows by the values of some columns, of which pointers have their names."""
    return tables.groups_of([{**row, 'pointers': named(row)} for row in rows], columns)


def spread(group, column='cycles', per=None):
    """The spread of a count over the rows of a group; None where one of them didn't halt."""
    return tables.spread_of([tables.value_of(row, column, per) for row in group]) if all(row['ended'] == 'halted' for row in group) else None


def median(group, column='cycles', per=None):
    """The median of a group in a cell: how many of its runs came to their limit where one did."""
    found = spread(group, column, per)
    return tables.told(found.median) if found else f'limit: {sum(row["ended"] != "halted" for row in group)} of {len(group)}'


def widest(groups):
    """How far the seeds of a cell are apart at most, of its median."""
    found = [spread(group) for group in groups]
    return percent(max((each.highest / each.lowest - 1 for each in found if each), default=0))


def percent(share):
    """A share in percent."""
    return f'{100 * share:.1f} %'


def ratios(groups, others):
    """The quotients of two groups' cycles, run by run: those of one seed, and of the same other options besides."""
    for group, other in zip(groups, others, strict=True):
        found = {row['seed']: int(row['cycles']) for row in other}
        yield from (int(row['cycles']) / found[row['seed']] for row in group)


def lines_of(head, rows, names=1):
    """A table in Markdown, whose first columns are names and the others numbers."""
    mark = ['---'] * names + ['---:'] * (len(head) - names)
    return ''.join('| ' + ' | '.join(row) + ' |\n' for row in (head, mark, *rows))


# ---- statements


def statement(holds, tables_, text):
    """A line that says whether something holds, and names the tables that it rests on. None: it can't be asked here."""
    said = {True: '**Agrees**', False: '**Differs**', None: "**Can't be asked here**"}[holds]
    return wrapped(f'{said} ({tables_}): {text}' if tables_ else f'{said}: {text}')


def is_near(found):
    """Whether quotients are all near 1."""
    return 0.95 <= min(found) and max(found) <= 1.05


def told_ratios(found):
    """The range of some quotients, in words."""
    return f'{min(found):.3f} to {max(found):.3f}'


def wrapped(text, width=118):
    """A text as an item of a list, in lines of at most so many characters."""
    made, line = [], '-'
    for word in text.split():
        if len(line) + 1 + len(word) > width:
            made.append(line)
            line = ' '
        line += f' {word}'
    return '\n'.join([*made, line]) + '\n'
