"""What sharing costs: words of several nodes in one line, and a store to a line of which others have copies."""
import re
import subprocess
import tempfile
from itertools import product
from pathlib import Path

import asking
import cross
import latencies
import plots
import runs
import tables
from alewife import limit_of
from asking import MESHES, lines_of, median, statement, told_ratios, widest

SOURCE = Path(__file__).resolve().parent / 'sharing.s'
CONTEXTS, WORDS, TIMES = (2, 4, 8, 16), (4, 2, 1), 32
TURN = tables.Per(str(TIMES))
NODES, TRIED, COPIES = (16, 64), 16, (1, 2, 4, 8, 15, 31, 63)
# The store that is drawn: how many copies it finds on the most nodes, and how many cycles stand before and behind it.
DRAWN, AROUND = 16, 12
# The home of the line that is stored to, and the node that does, two hops from it.
PLACES = {16: (5, 7), 64: (latencies.HOME, latencies.NEAR[0])}


# ---- words in a line


def source_of(nodes, contexts, words):
    """The program with so many contexts that add, and so many of their words in a line."""
    text = SOURCE.read_text().replace('.mesh   4,4', '.mesh   {},{}'.format(*MESHES[nodes]))
    for name, value in {'last': nodes - 1, 'contexts': contexts, 'shift': words.bit_length() - 1, 'mask': words - 1}.items():
        text = re.sub(rf'(\.equ    {name}),[0-9]+', rf'\1,{value}', text)
    return text.encode()


def line_rows(study):
    """The rows by nodes, words in a line and contexts; and on 16 nodes those with each cost changed by a cycle, by the first seed."""
    rows, beside = {}, {}
    one = asking.replace(study, seeds=study.seeds[:1])
    for nodes, words, contexts in product(NODES, WORDS, CONTEXTS):
        name, image = f'sharing-{nodes}-{words}-{contexts}', runs.asked(study.binary, ['asm'], source_of(nodes, contexts, words))
        rows[nodes, words, contexts] = study.rows(name, image)
        if nodes == TRIED:
            beside[nodes, words, contexts] = [row for at, costs in enumerate(asking.neighbours()) for row in one.rows(f'{name}-beside-{at}', image, **costs)]
    return rows, beside


def lines_table(rows):
    """Cycles a turn of the loop, by contexts."""
    made = []
    for nodes, words in product(NODES, WORDS):
        groups = [rows[nodes, words, contexts] for contexts in CONTEXTS]
        made.append((str(nodes), str(words), *(median(group, 'cycles', TURN) for group in groups), widest(groups)))
    return lines_of(('nodes', 'words a line', *(f'n = {contexts}' for contexts in CONTEXTS), 'seeds'), made)


def over(rows, first, second):
    """The quotients of the cycles of two groups, run by run."""
    return [int(a['cycles']) / int(b['cycles']) for a, b in zip(rows[first], rows[second], strict=True)]


def line_statements(rows, beside):
    """What is said of words in a line."""
    both = {key: group + beside.get(key, []) for key, group in rows.items()}
    also = f'by all seeds, and on {TRIED} nodes with each cost a cycle less or more'
    shared = {words: [ratio for nodes, n in product(NODES, CONTEXTS) for ratio in over(both, (nodes, words, n), (nodes, 1, n))] for words in WORDS[:2]}
    yield statement(min(map(min, shared.values())) > 1, 'table 10', 'words that nobody shares cost where their line is shared: a turn takes '
                    + ', '.join(f'{min(found):.1f} to {max(found):.1f} times as long with {words} words a line' for words, found in shared.items())
                    + f' as with a line each, {also}.')
    worse = [ratio for nodes, n in product(NODES, CONTEXTS[1:]) for ratio in over(both, (nodes, 4, n), (nodes, 2, n))]
    yield statement(min(worse) > 1, 'table 10', f'four words a line are worse than two, from four contexts on: {told_ratios(worse)} times as long, {also}.')
    for words, first, text in ((1, 2, 'a line each'), (2, 2, 'two words a line'), (4, 4, 'four words a line')):
        grown = [ratio for nodes, n in product(NODES, CONTEXTS) if n > first for ratio in over(both, (nodes, words, n), (nodes, words, first))]
        yield statement(max(grown) <= 1.05, 'table 10', f'with {text} a turn takes no longer, within 5 %, the more contexts add: {told_ratios(grown)} times as long as with '
                        f'{first}, {also}.' + (' A run is as long as its slowest line.' if words > 1 else ''))
    yield statement(None, '', 'what longer lines do: a line has four words.')


# ---- copies of a line


def steps(first, second, nodes):
    """How many wires there are from a node to another."""
    across, along = (abs(a - b) for a, b in zip(divmod(first, MESHES[nodes][0]), divmod(second, MESHES[nodes][0])))
    return across + along


def readers_of(nodes, copies):
    """The nodes that have a copy, in the order in which they read: the home is one of them where all others have one."""
    home, writer = PLACES[nodes]
    others = [node for node in range(nodes) if node not in (home, writer)]
    return sorted((others + [home])[:copies])


def store_of(nodes, copies):
    """The source of a store behind so many readers."""
    home, writer = PLACES[nodes]
    access = latencies.Access('', writer, 'store', dict.fromkeys(readers_of(nodes, copies), 'reads'), {})
    text = latencies.source_of(access).decode().replace('.mesh   8,8', '.mesh   {},{}'.format(*MESHES[nodes]))
    return access, text.replace('0x400001b0', hex(0x40000000 + 16 * home)).encode()


def by_hand(nodes, copies, pointers, costs):
    """The cycles of a store: the request, the answers that the home takes one by one, and the line."""
    home, writer = PLACES[nodes]
    way = costs['hop'] * steps(writer, home, nodes)
    acts = costs['hit'] + costs['send'] + way + costs['home'] + (costs['trap'] if pointers != runs.ALL and copies > pointers else 0)
    comes, port = [], acts
    for reader in readers_of(nodes, copies):
        if reader == home:
            comes.append(acts + costs['fill'])
        else:
            port += costs['send']
            comes.append(port + 2 * costs['hop'] * steps(home, reader, nodes) + costs['fill'] + costs['send'])
    done = acts
    for come in sorted(comes):
        done = max(done, come) + costs['home']
    return done + costs['send'] + costs['data'] + way + costs['fill']


def store_tries(study):
    """Each store by nodes, copies, pointers and costs: what it takes by hand and by its run."""
    beside = [asking.COSTS | {cost: value for cost, (value,) in costs.items()} for costs in asking.neighbours()]
    tried = [(nodes, copies, pointers, costs) for nodes, copies, pointers in product(NODES, COPIES, (4, runs.ALL)) if copies < nodes
             for costs in [asking.COSTS, *(beside if nodes == TRIED else [])]]
    found = asking.in_turn(study, lambda each: (by_hand(*each), latencies.measured_of(study, *store_of(*each[:2]), each[3], each[2])), tried)
    return list(zip(tried, found))


def copies_table(own):
    """Cycles of a store by its copies."""
    made = [(str(nodes), str(copies), *(tables.told(number) for pointers in (4, runs.ALL) for number in own[nodes, copies, pointers]))
            for nodes, copies in dict.fromkeys(key[:2] for key in own)]
    return lines_of(('nodes', 'copies', 'p = 4, by hand', 'p = 4, run', 'p = all, by hand', 'p = all, run'), made)


def most_of(costs):
    """What the home takes for an answer: it comes to the next one by its own work, or by the port that its messages wait for."""
    return max(costs['home'], costs['send'])


def each_more(tried):
    """What each further copy costs, over what the home takes for an answer: from a number of copies to the next, of those that others than the home have."""
    found = {(nodes, copies, tuple(costs.items())): run for (nodes, copies, pointers, costs), (_, run) in tried if pointers == runs.ALL}
    for nodes, copies, costs in found:
        for more in COPIES[COPIES.index(copies) + 1:][:1]:
            if (nodes, more, costs) in found:
                others = more - copies - (PLACES[nodes][0] in readers_of(nodes, more))
                yield (found[nodes, more, costs] - found[nodes, copies, costs]) / others / most_of(dict(costs))


def copy_statements(tried, own):
    """What is said of copies."""
    same, also = sum(hand == run for _, (hand, run) in tried), f'on {TRIED} nodes with each cost a cycle less or more'
    yield statement(same == len(tried), 'table 11', f'a store takes what the definitions make of it by hand, to the cycle, also {also}: {same} of {len(tried)} runs.')
    default = list(each_more([each for each in tried if each[0][3] == asking.COSTS]))
    yield statement({*default} == {1}, 'table 11', f'with a full map each further copy costs what the home takes for an answer, the greater of `home` and `send`, '
                    f'{most_of(asking.COSTS)} cycles: {told_ratios(default)} times that. Its own copy costs nothing, for its answer comes before those of others.')
    more = list(each_more(tried))
    yield statement({*more} == {1}, 'table 11', f'so it is {also}: {told_ratios(more)} times. Where `home` and `send` are as long as each other, or `hop` is longer, the way of '
                    'the answer from the farthest node shows.')
    found = {(nodes, copies, pointers, tuple(costs.items())): run for (nodes, copies, pointers, costs), (_, run) in tried}
    traps = {run - found[nodes, copies, runs.ALL, costs] - dict(costs)['trap'] for (nodes, copies, pointers, costs), run in found.items()
             if pointers != runs.ALL and copies > pointers}
    yield statement(traps == {0}, 'table 11', f'more copies than pointers cost the handler once, however many they are: with 4 pointers `trap` more than with a full map, also '
                    f'{also}. The `inv` for each copy keeps the home\'s processor while the messages are on their way.')
    one, most = own[NODES[-1], 1, runs.ALL][1], own[NODES[-1], COPIES[-1], runs.ALL][1]
    yield statement(None, '', 'that most stores find few copies: rows count INV together, those for readers of a written line too, and not by the store. What it would be worth '
                    f'table 11 says: on {NODES[-1]} nodes a store takes {one} cycles with one copy, and {most} with {COPIES[-1]}.')


# ---- pictures


def copies_picture(own):
    """Cycles of a store by its copies on the most nodes, with few pointers and with a full map."""
    named = {4: '4 pointers', runs.ALL: 'a full map'}
    groups = {(named[pointers], str(copies)): [{'cycles': str(run)}] for (nodes, copies, pointers), (_, run) in own.items() if nodes == NODES[-1]}
    return plots.picture(groups, 'copies of the line', ['cycles'], plots.Look('linear', True, order=tuple(named.values())), per=tables.Per('1', 'cycles of the store'))


def store_picture(study):
    """What each node does in each cycle of one store, with few pointers and below it with a full map, as view/alewife-timeline draws it."""
    access, source = store_of(NODES[-1], DRAWN)
    image, spans = runs.asked(study.binary, ['asm'], source), {pointers: latencies.span_of(study, access, source, asking.COSTS, pointers) for pointers in (4, runs.ALL)}
    ends = [min(begun for begun, _ in spans.values()) - AROUND, max(ended for _, ended in spans.values()) + AROUND]
    words = ['--program', str(study.binary), '--from', str(ends[0]), '--to', str(ends[1])]
    with tempfile.TemporaryDirectory() as folder:
        logs = [Path(folder, f'{pointers}.trace') for pointers in spans]
        for log, (pointers, (begun, ended)) in zip(logs, spans.items()):
            log.write_bytes(runs.asked(study.binary, ['run', '--cycles', '0', '--limit', str(limit_of(NODES[-1])), '--pointers', str(pointers), '--write', 'trace'], image))
            words += ['--title', f'{"a full map" if pointers == runs.ALL else f"{pointers} pointers"}: the store takes {ended - begun} cycles']
        made = Path(folder, 'store.svg')
        ran = subprocess.run([cross.ROOT / 'view' / 'alewife-timeline', *logs, *words, '--picture', made], stderr=subprocess.PIPE, text=True)
        if ran.returncode:
            raise runs.SweepError(f'view/alewife-timeline draws no store: {ran.stderr.strip()}')
        return made.read_text()


def answer(study):
    """The blocks of this question."""
    rows, beside = line_rows(study)
    tried = store_tries(study)
    own = {each[:3]: found for each, found in tried if each[3] == asking.COSTS}
    said = ''.join([*line_statements(rows, beside), *copy_statements(tried, own)])
    count = sum(len(group) for each in (rows, beside) for group in each.values()) + len(tried)
    pictures = {'papers-copies.svg': copies_picture(own), 'papers-store.svg': store_picture(study)}
    return asking.Answer({'lines': lines_table(rows), 'copies': copies_table(own), 'sharing': said}, pictures, study.told(count, NODES),
                         [row for group in rows.values() for row in group])
