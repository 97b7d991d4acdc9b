"""A gathered sweep as a picture: a panel for each count, by the values of a column; boxes, or lines, bars or points for those of another one."""
import math
import re
import subprocess
from collections.abc import Callable
from dataclasses import dataclass
from pathlib import Path

import runs
import tables
import times

AXES = {
    'pointers': 'hardware pointers of a directory entry',
    'sets': 'sets of a cache (lines)',
    'limit': 'limit (greatest stamp)',
    'evict': 'evictions tried (of 256 draws)',
    'contexts': 'contexts a node',
    'lines': 'home lines a node',
    **{name: f'{name} (cycles)' for name in times.COSTS},
}
LABELS = {name: f'{name} in cycles' if name == 'latency' else name for name in tables.COMPUTED}
TERMINALS = {
    '.svg': "svg size {width},{height} noenhanced font 'sans-serif,{points:g}' background '#ffffff' linewidth {scale:g}",
    '.png': "pngcairo size {width},{height} noenhanced font 'sans-serif,{points:g}' fontscale 0.75 background '#ffffff' linewidth {scale:g}",
    '.pdf': "pdfcairo size {across:g},{down:g} noenhanced font 'sans-serif,{points:g}' fontscale 0.58 background '#ffffff' linewidth {thick:g}",
}
ENDS = {'.svg': (b'<?xml', b'</svg>'), '.png': (b'\x89PNG', b'IEND\xaeB`\x82'), '.pdf': (b'%PDF', b'%%EOF')}
DENSER, SHARPER = {'.png': 2}, {'.png': 1.6, '.pdf': 1.1}
HEAD = '''set terminal {terminal}
set multiplot layout {rows},{columns} margins {left:.4f},0.98,{bottom:.4f},{top:.4f} spacing 0.14,{gap:.4f}
unset key
set border 3
set tics nomirror out scale 0.5
set grid ytics lc rgb '#bbbbbb' lw 0.5 dt solid
set boxwidth 0.5
set xlabel '{axis}' offset 0,0.3
'''
PANEL = '''set border 3
set xrange [-0.6:{last}.6]
set yrange [{bottom:g}:{top:g}]
set xtics ({tics})
set ytics {marks}
set ylabel '{label}'
'''
NOTHING_COUNTED = '''set border 1
unset ytics
set label 99 'each is 0' at graph 0.5,0.5 center
plot {bottom:g}-1
unset label 99
'''
BOXES = '''$data << END
{data}
END
plot {between}$data using 1:3:2:6:5 with candlesticks lc rgb '{ink}' lw 1 dt solid fs solid 0.25 border whiskerbars 0.6, \\
     '' using ($1-0.25):4:(0.5):(0) with vectors nohead lc rgb '{ink}' lw 3 dt solid
'''
BETWEEN = "$data using 1:4 with lines lc rgb '#777777' lw 1 dt 2, \\\n     "
NAME = "set label {at} '{title}' at screen {middle:.4f},{y:.4f} left offset 3,{lower}"
SHAFT = "set arrow {at} from screen {left:.4f},{y:.4f} to screen {right:.4f},{y:.4f} nohead lc rgb '{colour}' lw {width} dt {dash}\n"
BLOCK = "set object {at} rectangle from screen {left:.4f},{low:.4f} to screen {right:.4f},{high:.4f} fc rgb '{colour}' fs {fill} border lc rgb '#000000'\n"
DATA = '${name} << END\n{data}\nEND\n'
DRAWN = {
    'lines': "${name} using 1:4 with lines lc rgb '{colour}' lw {width} dt {dash}, \\\n"
             "     '' using 1:4:3:5 with yerrorbars lc rgb '{colour}' lw 1 dt solid pt {point} ps {size:g}",
    'points': "${name} using 1:4:3:5 with yerrorbars lc rgb '{colour}' lw {width} dt solid pt {point} ps {size:g}",
    'bars': "${name} using 1:4:({wide:.4f}) with boxes lc rgb '{colour}' lw 1 fs {fill} border lc rgb '#000000', \\\n"
            "     '' using 1:3:(0):($5-$3) with vectors nohead lc rgb '#000000' lw 2.5 dt solid",
}
PANEL_ROW, TITLE_ROW, LEGEND_ROW, ABOVE, BELOW, BETWEEN_ROWS = 280, 30, 22, 16.8, 64.4, 81.2
UNITS, POINTS_HIGH = 800, 14
# How many names stand in a row of the legend, and how many where one has more than so many characters.
NAMES_A_ROW, LONG_NAMES_A_ROW, LONG = 4, 3, 18
GREYS, POINTS = ('#000000', '#777777'), (7, 6, 5, 4, 9, 8, 11, 10)
COLOURS = ('#0072b2', '#d55e00', '#009e73', '#e69f00', '#cc79a7', '#56b4e9', '#000000')
FILLS = ('solid 1', 'solid 0.4', 'pattern 1', 'pattern 4', 'pattern 2', 'pattern 5')
LEVELS = 30
SIZES = ((1e-5, 1e-6, 'millionths'), (1e-2, 1e-3, 'thousandths'), (1e4, 1, ''), (math.inf, 1e3, 'thousands'))


@dataclass(frozen=True)
class Look:
    """How a plot looks: the scale ('log', 'linear', or None, where the counts say), whether in colour, its title, its size, and the order of names."""
    scale: str | None = None
    colour: bool = False
    title: str = ''
    size: tuple | None = None
    order: tuple = ()


@dataclass(frozen=True)
class Axis:
    """An axis of counts: what it is called, where a count stands on it, its ends, and its marks for gnuplot."""
    label: str
    place: Callable[[float], float]
    bottom: float
    top: float
    marks: str


@dataclass(frozen=True)
class Sheet:
    """The picture in units, of which its width has 800: its height, its pixels for each unit, and where its panels stand."""
    height: float
    scale: float
    rows: int
    columns: int
    names: tuple
    has_title: bool
    sharper: float = 1

    @property
    def symbol(self):
        """How large a symbol is."""
        return 0.7 * self.scale * self.sharper

    @property
    def above(self):
        """How high title and legend are."""
        return TITLE_ROW * self.has_title + LEGEND_ROW * -(-len(self.names) // self.names_a_row)

    @property
    def names_a_row(self):
        """How many names stand in a row of the legend."""
        return LONG_NAMES_A_ROW if any(len(name) > LONG for name in self.names) else NAMES_A_ROW

    def head(self, ending, axis):
        """The first lines of the script."""
        width, height = round(UNITS * self.scale), round(self.height * self.scale)
        terminal = TERMINALS[ending].format(width=width, height=height, across=width / 96, down=height / 96, points=POINTS_HIGH * self.scale,
                                            scale=self.scale, thick=1.8 * self.scale)
        return HEAD.format(terminal=terminal, rows=self.rows, columns=self.columns, left=0.125, bottom=BELOW / self.height,
                           top=1 - (ABOVE + self.above) / self.height, gap=BETWEEN_ROWS / self.height, axis=quoted(axis))

    def title(self, text):
        """The line of the title."""
        y = 1 - 0.55 * TITLE_ROW / self.height
        return f"set label 90 '{quoted(text)}' at screen 0.5,{y:.4f} center font ',{18 * self.scale:g}'\n"

    def legend(self, colour, way):
        """The lines of the names above all panels, each with how it is drawn."""
        for at, name in enumerate(self.names):
            row, column = divmod(at, self.names_a_row)
            left, y = 0.1 + 0.92 / self.names_a_row * column, 1 - (self.has_title * TITLE_ROW + LEGEND_ROW * (row + 0.7)) / self.height
            style, half = style_of(at, colour, self.symbol), 6 / self.height
            place = {'at': at + 1, 'left': left, 'middle': left + 0.02, 'right': left + 0.04, 'y': y, 'low': y - half, 'high': y + half,
                     'lower': 0 if way == 'bars' else -0.25}
            yield {'lines': SHAFT, 'bars': BLOCK, 'points': ''}[way].format(**place, **style)
            point = '' if way == 'bars' else " point pt {point} ps {size:g} lc rgb '{colour}'".format(**style)
            yield NAME.format(title=quoted(name), **place) + point + '\n'


# ---- axes


def power_below(count):
    """The greatest power of ten that isn't above a count."""
    return math.floor(math.log10(count) + 1e-9)


def told(count):
    """A count as a mark, with k for thousands and M for millions."""
    for unit, letter in ((1e6, 'M'), (1e3, 'k')):
        if count >= unit:
            return f'{count / unit:g}{letter}'
    return f'{count:g}'


def marks_of(place, named, unnamed):
    """Marks of an axis for gnuplot: those with numbers, and small ones without."""
    parts = [f"'{told(mark)}' {place(mark):.4f}" for mark in named] + [f"'' {place(mark):.4f} 1" for mark in unnamed]
    return '(' + ', '.join(parts) + ')'


def logarithmic(label, lowest, highest):
    """An axis of logarithms. Where a count is 0 it is of the count plus 1, on which 0 has a place."""
    has_zero = lowest == 0

    def place(count):
        """The logarithm."""
        return math.log10(count + has_zero)
    low, high = 0 if has_zero else power_below(lowest), max(power_below(highest), 0 if has_zero else power_below(lowest))
    high += place(highest) > place(10.0 ** high) + 0.01 or high == low
    powers = [10.0 ** power for power in range(low, high + 1)]
    few = [times * power for power in powers[:-1] for times in (2, 5)] if high - low == 1 else []
    small = [times * power for power in powers[:-1] for times in range(2, 10) if times * power not in few]
    named = [0] * has_zero + [power for power in powers if not has_zero or high < 5 or power != 1] + few
    bottom = -0.15 if has_zero else place(powers[0])
    top = place(powers[-1]) if not has_zero else max(place(highest) * 1.08, 1)
    return Axis(f'{label} (logarithmic)', place, bottom, top, marks_of(place, named, small))


def linear(label, highest):
    """An axis of counts from 0, of thousands where they are many, or of small parts where a share is small, so that marks are short."""
    unit, said = next((unit, f' ({called})' if called else '') for below, unit, called in SIZES if highest < below)
    return Axis(f'{label}{said}', lambda count: count / unit, 0, highest / unit * 1.08, 'auto')


def is_wide(spreads):
    """Whether medians are so far apart that only logarithms show them all."""
    medians = [spread.median for spread in spreads]
    return max(medians) > LEVELS * (min(medians) + 1)


def axis_of(label, spreads, is_log):
    """The axis of a count, none where each count is 0. Where one is and the others are below 1, the count plus 1 would tell none from another."""
    highest, lowest = max(each.highest for each in spreads), min(each.lowest for each in spreads)
    if not highest:
        return Axis(label, lambda count: count, 0, 1, '')
    return logarithmic(label, lowest, highest) if is_log and (lowest or highest >= 1) else linear(label, highest)


# ---- panels


def style_of(at, colour, size):
    """How a series is drawn: its colour or grey, its dashes, its symbol, and what fills its bars."""
    point = {'point': POINTS[at % len(POINTS)], 'size': size}
    if colour:
        return point | {'colour': COLOURS[at % len(COLOURS)], 'dash': at % 5 + 1, 'fill': 'solid 1', 'width': 2.5}
    return point | {'colour': GREYS[at % 2], 'dash': at // 2 + 1, 'fill': FILLS[at % len(FILLS)], 'width': 1.5}


def data_of(axis, values, groups, aside):
    """The rows of a panel's data: the place of each group's value, so far aside, and the spread of its counts on the axis."""
    rows = ((s.lowest, s.lower, s.median, s.upper, s.highest) for s in groups.values())
    places = (values.index(key[-1]) + aside for key in groups)
    return '\n'.join(' '.join([f'{at:.4g}', *(f'{axis.place(value):.6g}' for value in row)]) for at, row in zip(places, rows))


def series_of(groups):
    """The groups of each series."""
    found = {}
    for key, each in groups.items():
        found.setdefault(key[0], {})[key] = each
    return list(found.values())


def drawn_series(axis, values, groups, ink, way):
    """The part of the script that draws each series: medians, with bars between quartiles, side by side where values are names."""
    each = series_of(groups)
    wide = 0.8 / len(each)
    asides = [0 if way == 'lines' else (at - (len(each) - 1) / 2) * wide for at in range(len(each))]
    data = ''.join(DATA.format(name=f'series{at}', data=data_of(axis, values, one, asides[at])) for at, one in enumerate(each))
    drawn = (DRAWN[way].format(name=f'series{at}', wide=wide * 0.9, **style_of(at, *ink)) for at in range(len(each)))
    return data + 'plot ' + ', \\\n     '.join(drawn) + '\n'


def panel(axis, values, groups, ink, way):
    """The part of the script that draws one count: series, or boxes between quartiles, with whiskers to the ends and a bar at the median. Ink says
    whether in colour, and how large symbols are."""
    tics = ', '.join(f"'{quoted(value)}' {at}" for at, value in enumerate(values))
    head = PANEL.format(last=len(values) - 1, bottom=axis.bottom, top=axis.top, tics=tics, marks=axis.marks or 'auto', label=quoted(axis.label))
    if not axis.marks:
        return head + NOTHING_COUNTED.format(bottom=axis.bottom)
    if len(next(iter(groups))) > 1:
        return head + drawn_series(axis, values, groups, ink, way)
    between = BETWEEN if way == 'lines' else ''
    return head + BOXES.format(data=data_of(axis, values, groups, 0), between=between, ink=COLOURS[0] if ink[0] else GREYS[0])


def way_of(values, is_log):
    """How series are drawn: lines where values are numbers; where they are names bars from 0, or points where an axis has no 0."""
    if all(value.isdecimal() for value in values):
        return 'lines'
    return 'points' if is_log else 'bars'


def quoted(text):
    """A text between gnuplot's quotes."""
    return text.replace("'", "''")


# ---- pictures

NOTHING = (rb'\t*<title>.*?</title>\n', rb' stroke-linecap="butt" stroke-linejoin="miter"', rb'<g [^>]*>\s*</g>\n')
SYMBOLS = rb'<defs>.*?</defs>\n'


def smaller(picture, *more):
    """An SVG picture of gnuplot's without what draws nothing: names, attributes that are the default anyway, and empty groups."""
    for nothing in (*NOTHING, *more):
        picture = re.sub(nothing, b'', picture, flags=re.S)
    return picture


def drawn(script, ending):
    """What gnuplot draws, which begins and ends as its form does."""
    try:
        ran = subprocess.run(['gnuplot', '-'], input=script.encode(), stdout=subprocess.PIPE, stderr=subprocess.PIPE)
    except OSError as fault:
        raise runs.SweepError(f"gnuplot can't be run: {fault.strerror}. On Debian it is in gnuplot-nox") from fault
    begin, end = ENDS[ending]
    if ran.returncode or not ran.stdout.startswith(begin) or not ran.stdout.rstrip().endswith(end):
        raise runs.SweepError(f'gnuplot drew nothing: {ran.stderr.decode().strip() or ran.returncode}')
    return ran.stdout


def ending_of(path):
    """The ending of a picture's name, which says its form."""
    ending = Path(path).suffix.lower()
    if ending not in TERMINALS:
        raise runs.SweepError(f'{path}: a plot ends in {", ".join(list(TERMINALS)[:-1])} or {list(TERMINALS)[-1]}')
    return ending


def sheet_of(ending, look, panels, names):
    """The picture's size and parts."""
    columns = min(2, panels)
    rows = -(-panels // columns)
    bare = Sheet(0, 0, rows, columns, names, bool(look.title))
    high = (400 if panels == 1 else PANEL_ROW * rows) + bare.above
    width, height = look.size or (UNITS * DENSER.get(ending, 1), high * DENSER.get(ending, 1))
    scale = width / UNITS
    if height / scale < 0.6 * high:
        raise runs.SweepError(f'{width}x{height}: {panels} panels want a height of {math.ceil(0.6 * high * scale)} at this width')
    return Sheet(height / scale, scale, rows, columns, names, bool(look.title), SHARPER.get(ending, 1))


def picture(groups, by, columns, look=Look(), ending='.svg', per=None):
    """A picture by gnuplot, a panel for each column, two in a row, and above them the title and the names of the series. All panels have one scale."""
    has_series, rank = len(next(iter(groups))) > 1, tables.ranked(look.order)
    values = sorted({key[-1] for key in groups}, key=rank)
    names = list(dict.fromkeys(key[0] for key in groups)) if has_series else []
    counts = {column: dict(zip(groups, tables.spreads(groups, column, per))) for column in columns}
    is_log = look.scale == 'log' or look.scale is None and any(is_wide(list(each.values())) for each in counts.values())
    way, sheet = way_of(values, is_log), sheet_of(ending, look, len(columns), tuple(names))
    labels = {column: per.head(column) if per else LABELS.get(column, f'{column} a run') for column in columns}
    axes = {column: axis_of(labels[column], list(each.values()), is_log) for column, each in counts.items()}
    panels = [panel(axes[column], values, each, (look.colour, sheet.symbol), way) for column, each in counts.items()]
    above = (sheet.title(look.title) if look.title else '') + ''.join(sheet.legend(look.colour, way))
    script = sheet.head(ending, AXES.get(by, by)) + above + 'unset label\nunset arrow\nunset object\n'.join(panels) + 'unset multiplot\n'
    made = drawn(script, ending)
    return made if ending != '.svg' else smaller(made, *([] if has_series else [SYMBOLS]))


def plot(groups, by, columns):
    """An SVG picture as it looks where nothing is said."""
    return picture(groups, by, columns).decode()
