"""What a gathered sweep says: medians, quartiles and ends of a count for each value of a column, as a table; and where tables stand in a document."""
import math
import re
import statistics
from dataclasses import dataclass

import runs
import times

MARKED = re.compile(r'(<!-- (\w+) -->\n).*?(<!-- end -->)', re.S)


@dataclass(frozen=True)
class Spread:
    """The lowest, the quartiles and the highest of some numbers."""
    lowest: float
    lower: float
    median: float
    upper: float
    highest: float


def spread_of(values):
    """The spread of some numbers, of which there is one at least. The median of an even count is the mean of its two middle ones."""
    lower, median, upper = statistics.quantiles(values, method='inclusive') if len(values) > 1 else values * 3
    return Spread(min(values), lower, median, upper, max(values))


def with_nodes(rows):
    """The rows with a column nodes, the product of width and height."""
    return [{**row, 'nodes': str(int(row['width']) * int(row['height']))} for row in rows]


def chosen(rows, conditions):
    """The rows that meet each condition, as sets=256."""
    for condition in conditions:
        name, equals, value = condition.partition('=')
        if not equals or rows and name not in rows[0]:
            raise runs.SweepError(f'{condition} is no column with a value, as sets=256')
        rows = [row for row in rows if row[name] == value]
    if not rows:
        raise runs.SweepError('no row is left')
    return rows


def place_of(value):
    """Where a value of a column stands: numbers by size, and before them names."""
    return (1, int(value), '') if value.isdecimal() else (0, 0, value)


def ranked(order):
    """Where a value stands: those of an order as there, the others behind them."""
    return lambda value: (order.index(value) if value in order else len(order), place_of(value))


def in_order(groups, order):
    """The groups, those of the named values first."""
    if missing := [name for name in order if not any(name in key for key in groups)]:
        raise runs.SweepError(f'there is no {missing[0]} to put in order')
    return dict(sorted(groups.items(), key=lambda group: [ranked(order)(value) for value in group[0]]))


def groups_of(rows, columns):
    """The rows by their values of some columns, in order."""
    groups = {}
    for row in rows:
        groups.setdefault(tuple(row[column] for column in columns), []).append(row)
    return dict(sorted(groups.items(), key=lambda group: [place_of(value) for value in group[0]]))


def refuse_mixed(rows, names, of=''):
    """Refuses rows that differ in one of these columns."""
    for name in names:
        values = {row[name] for row in rows}
        if len(values) > 1:
            raise runs.SweepError(f'the rows{of} differ in {name} too: choose with --where {name}={min(values)}, say')


def grouped(rows, by, series=None):
    """The rows by the value of a column, for each value of another one where a series is asked for. Refuses rows that differ otherwise than
    by the seed: in an option, in the image within a group, or in the image at all where neither column is the image's. The limit may differ
    where all runs halted."""
    for name in filter(None, (by, series)):
        if name not in rows[0]:
            raise runs.SweepError(f'there is no column {name}')
    chosen = {by, series, 'seed', *(['limit'] if all(row['ended'] == 'halted' for row in rows) else [])}
    of_images = chosen & {*runs.OF_IMAGE, 'nodes'}
    refuse_mixed(rows, [name for name in runs.way_of(rows[0]).key if name not in chosen and not (of_images and name == 'image')])
    groups = groups_of(rows, [series, by] if series else [by])
    for values, group in groups.items():
        refuse_mixed(group, ['image'], f' of {" ".join(values)}')
    return groups


@dataclass(frozen=True)
class Per:
    """What counts are divided by: columns and numbers, multiplied, as nodes*4; and what they are called then, where that is said."""
    text: str
    called: str = ''

    def head(self, column):
        """What a count is called that is divided so."""
        if self.called:
            return self.called
        return f'{column} / ({self.text})' if '*' in self.text else f'{column} / {self.text}'

    def of(self, row):
        """The divisor of a row."""
        product = math.prod(int(part) if part.isdecimal() else count_of(row, part) for part in self.text.split('*'))
        if not product:
            raise runs.SweepError(f'{self.text} is 0 in a row: nothing can be told for each')
        return product


def count_of(row, column):
    """A count of a row."""
    try:
        return int(row[column])
    except (KeyError, ValueError) as fault:
        raise runs.SweepError(f'{column} is no column of counts') from fault


# The columns that are computed of a timed run: a count of it, and what that is told for.
COMPUTED = {
    'latency': ('access_cycles', Per('accesses')),
    **{f'{name}_share': (f'{name}_cycles', Per('nodes*cycles')) for name in (*times.SPENT.values(), 'work')},
}


def value_of(row, column, per=None):
    """A count of a row, or what is computed of it, and that over what it is told for."""
    if column in COMPUTED and not set(times.NAMES) <= set(row):
        raise runs.SweepError(f'{column} is of runs by {times.TURNING} alone')
    count, own = COMPUTED.get(column, (column, None))
    return count_of(row, count) / math.prod(each.of(row) for each in (own, per) if each)


def spreads(groups, column, per=None):
    """The spread of a column for each value."""
    return [spread_of([value_of(row, column, per) for row in group]) for group in groups.values()]


def told(number):
    """A number, rounded to a whole one where it is large, to a tenth where it isn't, and to three digits below 1, with a comma for each thousand."""
    if number < 1 and number != round(number, 1):
        return f'{number:.3g}'
    return f'{number:,.0f}' if number >= 100 or number == int(number) else f'{number:,.1f}'


def cell(spread, by_ends=False):
    """A median, with the quartiles in brackets, or with the lowest and the highest."""
    low, high = (spread.lowest, spread.highest) if by_ends else (spread.lower, spread.upper)
    return f'{told(spread.median)} ({told(low)} to {told(high)})'


def table(groups, by, series, columns, per=None, by_ends=False):
    """A table in Markdown: of each value its runs, those that halted, and of each column the median and quartiles, or the lowest and the highest."""
    heads, named = [series, by] if series else [by], [per.head(column) if per else column for column in columns]
    lines = [[*heads, 'runs', 'halted', *named], ['---:'] * (len(heads) + 2 + len(columns))]
    cells = [spreads(groups, column, per) for column in columns]
    for at, (values, group) in enumerate(groups.items()):
        halted = sum(row['ended'] == 'halted' for row in group)
        each = [column[at] for column in cells]
        lines.append([*values, str(len(group)), str(halted), *(cell(s, by_ends) for s in each)])
    return ''.join('| ' + ' | '.join(line) + ' |\n' for line in lines)


# ---- a document


def document(text, blocks, is_part):
    """The document with each block between its marks; what else stands between marks stays, where this is a part of it."""
    marked = {match[2] for match in MARKED.finditer(text)}
    if differing := set(blocks) - marked or (set() if is_part else marked - set(blocks)):
        raise runs.SweepError(f'the document and the script differ on the blocks {", ".join(sorted(differing))}')
    return MARKED.sub(lambda match: match[1] + blocks[match[2]] + match[3] if match[2] in blocks else match[0], text)
