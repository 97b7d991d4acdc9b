"""The question of Alewife (1995): what a load and a store take that nobody is in the way of, beside what is worked out by hand."""
import re
from collections import Counter, namedtuple
from itertools import product
from pathlib import Path

import asking
import runs
from asking import lines_of, statement

SOURCE = Path(__file__).resolve().parent / 'latency.s'
# The home of the line, and the nodes that are two hops from it: the first of them is the one whose access is measured.
HOME, NEAR = 27, (29, 11, 18, 20, 25, 34, 36, 43)
ACK_BY_ACK = 'max(home,send)'
SOFTWARE_READ = 425
# An access: what it is, who does it, the node and its label of those that act before it, and its parts, each so many times.
Access = namedtuple('Access', 'text node label before sum')
MOMENT = re.compile(r'([0-9]+) ([0-9]+) (?:I ([0-9]+)|D [0-9]+ ([0-9]+))')


def way(count, data=0):
    """A message over two hops, so many times, some of them with a line."""
    return Counter(send=count, data=data, hop=2 * count)


def accesses():
    """Each access with its sum: how it comes out of the definitions."""
    begin, there, back, acted = Counter(hit=1), way(1), way(1, 1), Counter(home=1)
    filled, asked = Counter(fill=1), way(1) + Counter(fill=1) + way(1, 1)
    far, trap = begin + there + acted, Counter(trap=1)
    for verb, label in (('load', 'load'), ('store', 'store')):
        yield Access(f'{verb}, home here', HOME, label, {}, begin + acted + filled)
        yield Access(f'{verb}, home away', NEAR[0], label, {}, far + back + filled)
        yield Access(f'{verb}, home here, written away', HOME, label, {NEAR[2]: 'writes'}, begin + acted + asked + acted + filled)
        yield Access(f'{verb}, home away, written there', NEAR[0], label, {HOME: 'writes'}, far + filled + acted + back + filled)
        yield Access(f'{verb}, home away, written elsewhere', NEAR[0], label, {NEAR[2]: 'writes'}, far + asked + acted + back + filled)
    yield Access('load, home away, trap', NEAR[0], 'load', dict.fromkeys(NEAR[1:5], 'reads'), far + trap + back + filled)
    for copies in (1, 2, 4, 5, 7):
        more = trap if copies > 4 else Counter()
        acks = way(2) + filled + acted + Counter({ACK_BY_ACK: copies - 1})
        yield Access(f'store, away, {copies} {"copy" if copies == 1 else "copies"}{", trap" if more else ""}', NEAR[0], 'store',
                     dict.fromkeys(NEAR[1:1 + copies], 'reads'), far + more + acks + back + filled)


def source_of(access):
    """The program with the starts of an access."""
    starts = sorted([*access.before.items(), (access.node, access.label)])
    said = ''.join(f'        .start  {node},0,{label}\n' for node, label in starts)
    kept = re.sub(r'(?:        \.start  .*\n)+', lambda _: said, SOURCE.read_text(), count=1)
    return kept.encode()


def by_hand(access, costs):
    """The cycles of an access by its sum."""
    return sum(count * (max(costs['home'], costs['send']) if name == ACK_BY_ACK else costs[name]) for name, count in access.sum.items())


def told_sum(access):
    """The sum of an access in words."""
    return ' + '.join(f'{count} {name}' if count > 1 else name for name, count in access.sum.items() if count)


def measured(study, access, costs):
    """The cycles of an access, as a run tells them."""
    return measured_of(study, access, source_of(access), costs)


def measured_of(study, access, source, costs, pointers=4):
    """The cycles of an access of a source."""
    begun, ended = span_of(study, access, source, costs, pointers)
    return ended - begun


def span_of(study, access, source, costs, pointers):
    """The cycle in which the miss of an access starts, and the one in which the last delivery to its node ends, as a run's moments tell them."""
    image = runs.asked(study.binary, ['asm'], source)
    words = [word for name, value in {**costs, 'pointers': pointers}.items() for word in (f'--{name}', str(value))]
    begun = ended = None
    moments = [match for match in map(MOMENT.fullmatch, study.text(image, 'run', '--cycles', '0', *words, '--write', 'moments').split('\n')) if match]
    last = max(at for at, match in enumerate(moments) if match[4] == str(access.node))
    for match in moments[:last + 1]:
        begun, ended = (int(match[1]) if match[3] == str(access.node) else begun), int(match[2])
    return begun, ended


def row_of(study, access, costs):
    """The row of the run of an access."""
    return study.row(access.text, runs.asked(study.binary, ['asm'], source_of(access)), **costs)


def answer(study):
    """The blocks of this question."""
    beside = [asking.COSTS | {cost: value for cost, (value,) in costs.items()} for costs in asking.neighbours()]
    tried = list(product(accesses(), [asking.COSTS, *beside]))
    found = asking.in_turn(study, lambda each: measured(study, *each), tried)
    rows = [(access.text, told_sum(access), str(by_hand(access, costs)), str(run)) for (access, costs), run in zip(tried, found) if costs == asking.COSTS]
    same = sum(by_hand(*each) == run for each, run in zip(tried, found))
    said = statement(same == len(tried), 'table 5', 'each access takes what the definitions make of it by hand, to the cycle, with costs as by default and with each a '
                     f'cycle less or more: {same} of {len(tried)} runs.')
    software = next(access for access in accesses() if 'trap' in access.text)
    own = by_hand(software, asking.COSTS)
    trap = asking.COSTS['trap'] + SOFTWARE_READ - own
    said += statement(measured(study, software, asking.COSTS | {'trap': trap}) == SOFTWARE_READ, 'table 5', f'a load that software serves takes {SOFTWARE_READ} cycles: so it '
                      f'does with a handler of {trap}, a cost that was chosen for it; by default it takes {own}.')
    said += statement(None, '', "the paper's other latencies: the paper wasn't at hand, and since a user sets the costs, a sum that gives a figure would show nothing.")
    audited = asking.in_turn(study, lambda each: row_of(study, *each), tried)
    return asking.Answer({'accesses': lines_of(('access', 'by hand', 'cycles', 'run'), rows, 2), 'latencies': said}, {}, f'{len(tried) + 1} runs on 64 nodes', audited)
