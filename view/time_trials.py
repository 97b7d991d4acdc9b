"""What view/check tries of cycles: the column of alewife-log, the timeline, and the tables of alewife-top, beside what the program writes."""
import json
import re
import subprocess
from collections import defaultdict, deque
from dataclasses import dataclass
from pathlib import Path

import cross
from trials import LeftOut, expect

HERE = Path(__file__).resolve().parent
EXAMPLES = HERE.parent / 'examples'
ENDS = (0, 4, 5)
PROCESSOR, CONTROLLER, PORT = 1, 2, 3
WITH_LINE = {'REPM', 'UPDATE', 'RDATA', 'WDATA'}
SWITCHING = b'.mesh 3,1\n.contexts 2\n.lines 5\nset 0x40000000,%g1\nsll %o0,2,%g2\nmov 9,%g3\n' + (
    b'x: ld [%g1+%g2],%g4\nst %g4,[%g1+4]\nswap [%g1+64],%g4\nldub [%g1+129],%g4\nsubcc %g3,1,%g3\nbne x\nnop\nta 0\n')
# Two nodes that take the same events: node 1 has a line to read, or to write, and then node 0 writes it.
TWINS = """.mesh 2,1
set 0x40000000,%%g1
tst %%o0
bne other
mov 20,%%g2
wait: subcc %%g2,1,%%g2
bne wait
nop
st %%g0,[%%g1]
ta 0
other: %s
ta 0
"""
READS, WRITES = (TWINS % statement for statement in ('ld [%g1],%g2', 'st %g0,[%g1]'))
OTHER_COSTS = '--trap 7 --send 2 --data 9 --inv 3 --home 5 --hop 4 --retry 3'.split()
NO_PORT = '--send 0 --data 0 --hop 0'.split()
MOMENT = re.compile(r'(\d+) (\d+) ((?:[IH] \d+)|(?:[DE] \d+ \d+))')
COLUMN = re.compile(r'( *\d+) \[(\d+)-(\d+)\] +(node .*)')


@dataclass(frozen=True)
class Timed:
    """A run: its name, its costs by name, of each event its words in the log, its start and its finish, and what the program tells of its cycles."""
    name: str
    costs: dict
    events: list
    moments: list
    cycles: str

    def totals(self, name):
        """The numbers of a line of the cycles."""
        return [int(number) for number in re.search(rf'^{name}((?: [a-z]+ \d+)+)$', self.cycles, re.M)[1].split()[1::2]]

    def node(self, place):
        """The node of an event."""
        return int(self.events[place][3 if self.events[place][1] == 'D' else 2])

    def begins(self, place):
        """When an event begins: the handler works before it acts."""
        return self.moments[place][0] - self.costs['trap'] * (self.events[place][1] == 'H')


def keep_run(trial, name, trace, *costs):
    """Keeps the trace, the log and the moments of a run, and what is told of it."""
    texts = {'trace': trace, 'log': trial.program(['replay', '--write', 'log'], trace, ENDS),
             'moments': trial.program(['time', *costs, '--write', 'moments'], trace, ENDS)}
    for kind, text in texts.items():
        trial.keep(f'{name}.{kind}', text)
    lines, moments = texts['log'].decode().splitlines(), texts['moments'].decode()
    words = re.search('^costs (.*)$', moments, re.M)[1].split()
    rows = [(int(row[1]), int(row[2])) for row in map(MOMENT.fullmatch, moments.splitlines()) if row]
    return Timed(name, dict(zip(words[::2], map(int, words[1::2]))), [line.split() for line in lines[4:4 + int(lines[3].split()[1])]], rows,
                 trial.program(['time', *costs, '--write', 'cycles'], trace, ENDS).decode())


def kept_runs(trial):
    """Runs by time and by seeds, with switches, traps, evictions and a limit, by several costs, made once."""
    if not hasattr(trial, 'timed'):
        lock, walks = (trial.program(['asm'], source) for source in ((EXAMPLES / 'lock.s').read_bytes(), SWITCHING))
        workload = trial.program(['gen', '--seed', '3', '--width', '3', '--height', '2', '--size', '30'], b'')
        few = ('--pointers', '1', '--sets', '4')
        calls = {'timed': (('--cycles', '0', '--limit', '400'), lock), 'walks': ((*few, '--evict', '6'), walks),
                 'workload': (('--cycles', '3', *few), workload), 'seed': (('--seed', '2', *few), workload)}
        made = {name: trial.program(['run', *words, '--write', 'trace'], image, ENDS) for name, (words, image) in calls.items()}
        trial.timed = [keep_run(trial, 'timed', made['timed']), keep_run(trial, 'walks', made['walks'], *OTHER_COSTS),
                       keep_run(trial, 'workload', made['workload']), keep_run(trial, 'seed', made['seed'], *OTHER_COSTS),
                       keep_run(trial, 'no_port', made['seed'], *NO_PORT)]
        letters = {event[1] for run in trial.timed for event in run.events}
        expect(letters == set('IDHE') and any(' traps' in ' '.join(event) for event in trial.timed[3].events), f'events {letters}')
    return trial.timed


def said(trial, tool, *words, ends_with=0, is_late=False):
    """What a tool writes, or its last line on standard error where it has to end with 1 or more: it writes nothing then, but where that comes late."""
    call = [HERE / f'alewife-{tool}', '--program', trial.binary, *words]
    ran = subprocess.run(call, cwd=trial.folder, stdin=subprocess.DEVNULL, capture_output=True, text=True)
    line = ran.stderr.strip().split('\n')[-1]
    expect(ran.returncode == ends_with, f'{tool} {" ".join(words)}: status {ran.returncode}, {line}')
    expect(not ends_with or is_late or not ran.stdout, f'{tool} {" ".join(words)}: is refused behind {len(ran.stdout)} characters')
    return line if ends_with else ran.stdout


def timeline(trial, run, kind='log'):
    """The members of the timeline of a run by what they are: of events by entry, of the port by the number of the message, and arrows by phase and number."""
    words = ('--moments', f'{run.name}.moments')
    read = json.loads(said(trial, 'timeline', f'{run.name}.{kind}', *words))
    expect(read['otherData']['costs'] == run.costs and 'a cycle' in read['otherData']['unit'], f'{run.name}: {read["otherData"]}')
    found = {'M': [], 'event': {}, 'port': {}, 's': {}, 't': {}, 'f': {}, 'all': read['traceEvents']}
    for member in read['traceEvents']:
        phase = member['ph']
        if phase == 'M':
            found['M'].append(member)
        elif phase == 'X' and member['tid'] == PORT:
            port = member
        elif phase == 'X':
            expect(member['args']['entry'] not in found['event'], f'{run.name}: entry {member["args"]["entry"]} is there twice')
            found['event'][member['args']['entry']] = member
        else:
            key = member['cat'], member['id']
            expect(key not in found[phase], f'{run.name}: arrow {key} has two members {phase}')
            found[phase][key] = member
            if phase == 't':
                found['port'][member['id']] = port
    return found


# ---- trials


def columns_are_the_moments(trial):
    """With --moments alewife-log tells the start and the finish of each event behind its stamp, of a log and of a trace, and else the same lines"""
    for run in kept_runs(trial):
        plain = said(trial, 'log', f'{run.name}.log').splitlines()
        for kind in ('log', 'trace'):
            lines = said(trial, 'log', f'{run.name}.{kind}', '--moments', f'{run.name}.moments').splitlines()
            rows = [COLUMN.fullmatch(line) for line in lines[:len(run.moments)]]
            expect([row and (int(row[2]), int(row[3])) for row in rows] == run.moments, f'{run.name}: the cycles of a {kind}')
            expect([f'{row[1]} {row[4]}' for row in rows] + lines[len(rows):] == plain, f'{run.name}: the other words of a {kind}')
            expect(len({row.start(4) for row in rows}) == 1, f'{run.name}: the column has more than one width')
    part = said(trial, 'log', 'timed.log', '--moments', 'timed.moments', '--node', '1', '--from', '20').splitlines()
    expect(part and set(part) < set(said(trial, 'log', 'timed.log', '--moments', 'timed.moments').splitlines()), 'of a part')


def rows_hold_each_moment_once(trial):
    """The timeline is JSON with a process for each node, in which each event stands once in its row from begin to finish, and no two of a row overlap"""
    for run in kept_runs(trial):
        found, rows = timeline(trial, run), defaultdict(list)
        expect(sorted(found['event']) == [*range(len(run.events))], f'{run.name}: {len(found["event"])} of {len(run.events)} events')
        for place, event in enumerate(run.events):
            member, letter = found['event'][place], event[1]
            where = (run.node(place) + 1, PROCESSOR if letter in 'IH' else CONTROLLER, run.begins(place), run.moments[place][1])
            told = (member['pid'], member['tid'], member['ts'], member['ts'] + member['dur'])
            expect(told == where and member['args']['stamp'] == int(event[0]), f'{run.name}: {" ".join(event)} is at {told}, and not at {where}')
            statement = ' '.join(event[7:8] if event[7:8] in (['nop'], ['-']) else event[7:9])
            name = {'I': statement, 'D': event[4], 'H': f'handler {event[3]}', 'E': 'evict'}[letter]
            expect(member['name'] == name and (member['cat'] == 'miss') == ('misses' in event), f'{run.name}: {member}, of {" ".join(event)}')
        for member in found['all']:
            if member['ph'] == 'X':
                rows[member['pid'], member['tid']].append((member['ts'], member['ts'] + member['dur']))
        expect(all(one[0] < one[1] <= other[0] for spans in map(sorted, rows.values()) for one, other in zip(spans, spans[1:])), f'{run.name}: spans overlap')
        named = {(member['pid'], member.get('tid')): member['args'].get('name') for member in found['M'] if member['name'].endswith('_name')}
        expect({named[row] for row in rows} <= {'processor', 'controller', 'port'}, f'{run.name}: {named}')
        expect(all(named[pid, None] == f'node {pid - 1}' for pid, _ in rows), f'{run.name}: {named}')


def sent_by(event):
    """The messages that an event sends, as kind, line and receiver."""
    return [tuple(event[at + 1:at + 4]) for at, word in enumerate(event) if word == 'sends']


def ways_of(run):
    """The ways of messages and of packets, by the log: of each (entry that sends, place among those that it sends) the entry that takes, or None."""
    links, packets, ways = defaultdict(deque), defaultdict(deque), {'message': {}, 'packet': {}}
    for place, event in enumerate(run.events):
        if event[1] == 'D':
            ways['message'][links[event[2], event[3]].popleft()] = place
        if event[1] == 'H':
            ways['packet'][packets[event[2]].popleft(), 0] = place
        for number, (_, _, to) in enumerate(sent_by(event)):
            links[str(run.node(place)), to].append((place, number))
        if event[1] == 'D' and event[6] == 'traps':
            packets[event[3]].append(place)
    ways['message'].update((sent, None) for queue in links.values() for sent in queue)
    ways['packet'].update(((place, 0), None) for queue in packets.values() for place in queue)
    return ways


def arrows_of(run, found, category):
    """The ways that the arrows of a timeline say, by the events in which they begin and end, each with the arrow's number. Each begins within its event."""
    events, counts, ways, last = {(each['pid'], each['tid'], each['ts']): place for place, each in found['event'].items()}, defaultdict(int), {}, None
    for member in found['all']:
        last = member if member['ph'] == 'X' and member['tid'] != PORT else last
        if member['ph'] == 's' and member['cat'] == category:
            is_within = last['ts'] <= member['ts'] < last['ts'] + last['dur']
            expect(is_within and (last['pid'], last['tid']) == (member['pid'], member['tid']), f'{run.name}: {member}')
            place, end = last['args']['entry'], found['f'].get((category, member['id']))
            expect(not end or (end['bp'], end['name']) == ('e', member['name']) and end['ts'] >= member['ts'], f'{run.name}: {end}')
            ways[place, counts[place]] = end and events[end['pid'], end['tid'], end['ts']], member['id']
            counts[place] += 1
    return ways


def arrows_are_messages(trial):
    """An arrow of the timeline leads from each event that sends a message to its delivery, by way of the port, and from each trap to its handler"""
    under_way = set()
    for run in kept_runs(trial):
        found, ways = timeline(trial, run), ways_of(run)
        for category, wanted in ways.items():
            arrows = {sent: taken for sent, (taken, _) in arrows_of(run, found, category).items()}
            expect(arrows == wanted, f'{run.name}: {len(arrows)} arrows of {category}s, and {len(wanted)} are sent')
            expect(sum(each[0] == category for each in found['f']) == sum(taken is not None for taken in wanted.values()), f'{run.name}: ends of {category}s')
            under_way.update((category, taken is None) for taken in wanted.values())
        others = sum(int(to) != run.node(place) for place, event in enumerate(run.events) for _, _, to in sent_by(event))
        expect(len(found['port']) == len(found['t']) == others * (run.costs['send'] > 0), f'{run.name}: {len(found["port"])} spans of ports')
    expect(under_way >= {('message', False), ('message', True), ('packet', False)}, f'only {under_way}')


def arrivals_of(run, found, width):
    """When messages arrive, by the entries that take them: by their spans in ports, each of which has to be where it is by the definition."""
    numbers, free, arrivals = arrows_of(run, found, 'message'), defaultdict(int), {}
    for place, event in enumerate(run.events):
        node, leaves = run.node(place), run.moments[place][0 if event[1] == 'H' else 1]
        for number, (kind, _, to) in enumerate(sent_by(event)):
            taken, arrow = numbers[place, number]
            port, length, arrivals[taken] = found['port'].get(arrow), run.costs['send'] + run.costs['data'] * (kind in WITH_LINE), leaves
            if int(to) == node:
                expect(not port, f'{run.name}: {port}, and it goes to its own node')
                continue
            if port:
                told = port['pid'], port['name'], port['ts'], port['dur'], port['args']['to']
                expect(told == (node + 1, kind, max(free[node], leaves), length, int(to)), f'{run.name}: {port}, which leaves at {leaves}')
            free[node] = port['ts'] + port['dur'] if port else max(free[node], leaves)
            arrivals[taken] = free[node] + run.costs['hop'] * (abs(node % width - int(to) % width) + abs(node // width - int(to) // width))
            expect(not port or port['args']['arrives'] == arrivals[taken], f'{run.name}: {port} arrives at {arrivals[taken]}')
    return arrivals


def ports_say_when_messages_arrive(trial):
    """By the spans of ports in the timeline each delivery starts when it has to, and what is queued has the sums that the program tells"""
    for run in kept_runs(trial):
        arrivals = arrivals_of(run, timeline(trial, run), int(re.search(r'^mesh (\d+)', run.cycles, re.M)[1]))
        starts, controllers, queued = defaultdict(int), defaultdict(int), []
        for place, event in enumerate(run.events):
            node, (start, finish) = run.node(place), run.moments[place]
            if event[1] == 'D':
                wanted = max(starts[node], controllers[node], arrivals[place])
                expect(start == wanted, f'{run.name}: {" ".join(event)} starts at {start}, and not at {wanted}')
                queued.append(start - arrivals[place])
            starts[node] = start
            if event[1] in 'DE':
                controllers[node] = finish
        expect([len(queued), sum(queued), max(queued)] == run.totals('queued'), f'{run.name}: {len(queued)} are queued for {sum(queued)} cycles')


def timelines_ask_the_program(trial):
    """Without --moments the timeline of a trace has its times by the costs that the program has without words; of a trace and of its log it is the same"""
    for run in kept_runs(trial):
        by_log = said(trial, 'timeline', f'{run.name}.log', '--moments', f'{run.name}.moments')
        expect(said(trial, 'timeline', f'{run.name}.trace', '--moments', f'{run.name}.moments') == by_log, f'{run.name}: of the log and of the trace')
        expect((said(trial, 'timeline', f'{run.name}.trace') == by_log) == (run.name in ('timed', 'workload')), f'{run.name}: by the costs without words')


def rows_in(text, names):
    """The rows of a table of alewife-top, each as its numbers by the names of its columns, and the words behind them."""
    rows = [row.split(maxsplit=len(names)) for row in text.splitlines()[1:]]
    return [(dict(zip(names, map(float, row))), row[len(names)].strip()) for row in rows]


def tables_have_the_sums_of_time(trial):
    """Accesses by line and by place of the code have the number, the sum and the most of the program's accesses, and turns of places their cycles"""
    for run in kept_runs(trial):
        told = said(trial, 'top', f'{run.name}.trace', '--moments', f'{run.name}.moments', '--most', '9999')
        head, code, lines = told.split('\n\n')
        accesses, cycles = run.totals('accesses'), int(re.search(r'^cycles (\d+)$', run.cycles, re.M)[1])
        expect(head == 'cycles {}; accesses count {} sum {} most {}'.format(cycles, *accesses), f'{run.name}: {head}')
        lines = rows_in(lines, ('waited', 'accesses', 'mean', 'most'))
        sums = [sum(row['accesses'] for row, _ in lines), sum(row['waited'] for row, _ in lines), max(row['most'] for row, _ in lines)]
        expect(sums == accesses and all(abs(row['mean'] - row['waited'] / row['accesses']) < 0.06 for row, _ in lines), f'{run.name}: lines have {sums}')
        code = rows_in(code, ('cycles', 'turns', 'in misses', 'misses', 'waited', 'accesses'))
        expect([sum(row[name] for row, _ in code) for name in ('accesses', 'waited')] == accesses[:2], f'{run.name}: places of the code have other sums')
        nodes = [list(map(int, row.split()[2::2])) for row in run.cycles.partition('\nnodes ')[2].splitlines()[1:-1]]
        spent = sum(sum(row[:3]) for row in nodes)
        expect(run.name == 'timed' or sum(row['cycles'] + row['in misses'] for row, _ in code) == spent, f'{run.name}: turns, misses and switches have {spent}')
        wanted = defaultdict(int)
        for event, (start, finish) in zip(run.events, run.moments):
            wanted[event[6][2:] if event[1] == 'I' and 'misses' not in event else None] += finish - start
        expect({place.split()[0]: row['cycles'] for row, place in code} == {pc: count for pc, count in wanted.items() if pc}, f'{run.name}: cycles of places')
        for by, column in (('cycles', 'cycles'), ('waited', 'waited')):
            rows = said(trial, 'top', f'{run.name}.log', '--moments', f'{run.name}.moments', '--by', by).split('\n\n')[1]
            found = [row[column] for row, _ in rows_in(re.sub(r'\nand \d+ more$', '', rows), ('cycles', 'turns', 'in misses', 'misses', 'waited', 'accesses'))]
            expect(found and found == sorted(found, reverse=True), f'{run.name}: by {by} {found}')


def lines_of_sources_are_told(trial):
    """By a listing alewife-top adds the cycles of words of one line together, and a timeline has the line of each instruction"""
    run, source = kept_runs(trial)[0], EXAMPLES / 'lock.s'
    listing = trial.program(['asm', '--write', 'listing'], source.read_bytes())
    trial.keep('lock.listing', listing)
    numbers = {f'0x{row.split()[0]}': row.split()[2] for row in listing.decode().splitlines()}
    words = ('--listing', 'lock.listing', '--source', str(source))
    code = said(trial, 'top', 'timed.log', '--moments', 'timed.moments', '--most', '99', *words).split('\n\n')[1]
    wanted = defaultdict(int)
    for event, (start, finish) in zip(run.events, run.moments):
        wanted[f'lock.s:{numbers[event[6]]}' if event[1] == 'I' and 'misses' not in event else None] += finish - start
    rows = {place: row['cycles'] for row, place in rows_in(code, ('cycles', 'turns', 'in misses', 'misses', 'waited', 'accesses'))}
    expect(rows == {place: cycles for place, cycles in wanted.items() if place}, f'{rows}')
    told = json.loads(said(trial, 'timeline', 'timed.log', '--moments', 'timed.moments', *words))['traceEvents']
    places = {member['args']['entry']: member['args']['place'] for member in told if member.get('cat') in ('turn', 'miss')}
    expect(places == {place: f'lock.s:{numbers[event[6]]}' for place, event in enumerate(run.events) if event[1] == 'I'}, 'places in the timeline')


def functions_and_variables_are_told(trial):
    """Of a program in C the timeline names functions, and alewife-top has the cycles of accesses by variable, which lie where the linker has put them"""
    try:
        image = cross.build([EXAMPLES / 'c' / 'wrong' / 'peterson.c'], cross.Sizes(1, 1, 2, 384), cross.Options(keep=trial.folder / 'peterson.elf'))
    except cross.MissingTool as missing:
        raise LeftOut(missing) from missing
    run = keep_run(trial, 'peterson', trial.program(['run', '--cycles', '0', '--write', 'trace'], image))
    words = ('--moments', 'peterson.moments', '--elf', 'peterson.elf')
    told = json.loads(said(trial, 'timeline', 'peterson.trace', *words))['traceEvents']
    turns = [member for member in told if member.get('cat') in ('turn', 'miss')]
    names = {(member['args']['place'], member['name']) for member in turns}
    expect({'enter', 'program', 'start', 'yield'} <= {name for _, name in names}, f'{names}')
    for place, name in names:
        own = re.search(r'(?:\((\w+)\) in )?peterson\.c:\d+ \((\w+)\)', place)
        expect(not own or name == ('yield' if own[1] == 'yield' else own[2]), f'{place} has the name {name}')
    variables = rows_in(said(trial, 'top', 'peterson.trace', *words, '--most', '99').split('\n\n')[3], ('waited', 'accesses', 'mean', 'most'))
    expect([sum(row[name] for row, _ in variables) for name in ('accesses', 'waited')] == run.totals('accesses')[:2], f'{variables}')
    ends = {int(event[event.index(way) + 1], 16) for event in run.events for way in ('reads', 'writes') if way in event}
    flags = cross.symbols_of(trial.folder / 'peterson.elf')['flags']
    own = cross.symbols_of(trial.folder / 'peterson.elf')['program']
    pcs = [int(event[6], 16) for event in run.events if event[1] == 'I' and 'misses' not in event]
    turns = f'turns {len(pcs)} idle {sum(pc >= own for pc in pcs)} work {sum(pc < own for pc in pcs)}'
    cycles = int(re.search(r'^cycles (\d+)$', run.cycles, re.M)[1])
    shares = 'utilization {:.1f} %, by work alone {:.1f} %'.format(*(100 * count / cycles for count in (len(pcs), sum(pc < own for pc in pcs))))
    head = said(trial, 'top', 'peterson.trace', *words, '--idle', 'program').split('\n\n')[0].split('\n')
    expect((head[1], head[3]) == (turns, shares), f'{head}, and not {turns}, {shares}')
    trial.keep('peterson.profile', trial.program(['run', '--cycles', '0', '--write', 'profile'], image))
    head = said(trial, 'top', 'peterson.profile', '--elf', 'peterson.elf', '--idle', 'program', '--idle', 'yield').split('\n\n')[0]
    expect(head == turns, f'{head}, and not {turns}')
    expect({'flags', 'stack 0', 'stack 1'} <= {name for _, name in variables} and any(flags <= address < flags + 32 for address in ends), f'{variables}')


BAR = re.compile(r'<rect x="([0-9.]+)" y="(\d+)" width="([0-9.]+)" height="7" fill="(#\w+)"><title>(.*) at node (\d+), (\d+) to (\d+)</title></rect>')
AT_HOME = {'RREQ', 'WREQ', 'REPM', 'UPDATE', 'ACKC'}


def bars_of(run, first=0, last=10 ** 9):
    """The events of a run that are drawn in a range of cycles, by the log: of each its node, its cycles and what its colour stands for, in order."""
    found = []
    for place, event in enumerate(run.events):
        begin, end = run.begins(place), run.moments[place][1]
        what = event[1] if event[1] != 'D' else 'home' if event[4] in AT_HOME else 'cache'
        if begin < last and end > first:
            found.append((run.node(place), begin, end, what))
    return sorted(found)


def drawn_bars(text, first, last):
    """The bars of a picture, each as bars_of has them, with its colour for what it is, and where it begins below the top. They stand where their cycles are."""
    found = []
    for x, y, width, fill, _, node, begin, end in BAR.findall(text):
        left, right = (76 + (min(max(int(cycle), first), last) - first) * 864 / (last - first) for cycle in (begin, end))
        expect(abs(float(x) - left) < 0.06 and abs(float(width) - max(right - left, 1)) < 0.11, f'{begin} to {end} is at {x}, {width} wide')
        found.append(((int(node), int(begin), int(end), fill), int(y)))
    return found


def rows_of(drawn, wanted):
    """Where the rows of nodes begin in a part of a picture, whose bars have to be these events, each in its half of its node's row; and what colours are of."""
    rows, colours = defaultdict(set), defaultdict(set)
    expect([bar[:3] for bar, _ in sorted(drawn)] == [event[:3] for event in wanted], f'{len(drawn)} bars, and {len(wanted)} events')
    for (bar, y), (node, _, _, what) in zip(sorted(drawn), wanted):
        rows[node].add(y - 7 * (what not in 'IH'))
        colours[bar[3]].add(what)
    tops = [top for _, each in sorted(rows.items()) for top in each]
    expect(tops == [*range(tops[0], tops[0] + 18 * len(rows), 18)], f'rows begin at {tops}')
    return tops, colours


def delivered_elsewhere(run):
    """How many messages of a run are delivered at another node than their own."""
    return sum(taken is not None and int(sent_by(run.events[place])[at][2]) != run.node(place) for (place, at), taken in ways_of(run)['message'].items())


def pictures_have_each_event(trial):
    """A picture of two runs has each event once, in its node's row and where its cycles are, in a colour by what it is, and each message to another node"""
    one, other = runs = kept_runs(trial)[:2]
    moments = ('--moments', f'{one.name}.moments', '--moments', f'{other.name}.moments')
    said(trial, 'timeline', f'{one.name}.log', f'{other.name}.trace', '--picture', 'two.svg', *moments, '--title', 'one', '--title', '<other>')
    text, last = (trial.folder / 'two.svg').read_text(), max(finish for run in runs for _, finish in run.moments)
    expect(re.findall('font-weight="bold">(.*?)<', text) == ['one', '&lt;other&gt;'], 'the titles')
    drawn, count = drawn_bars(text, 0, last), len(one.events)
    tops, colours = rows_of(drawn[:count], bars_of(one))
    below, more = rows_of(drawn[count:], bars_of(other))
    expect(below[0] > tops[-1] and all(len(each) == 1 for each in (*colours.values(), *more.values())), f'{tops} {below} {colours} {more}')
    expect(len({what for each in (colours, more) for whats in each.values() for what in whats}) == len({*colours, *more}) == 5, f'{colours} {more}')
    expect(text.count('stroke-width="0.8"') == sum(map(delivered_elsewhere, runs)), 'the lines of messages')
    middle = last // 2
    said(trial, 'timeline', f'{one.name}.log', '--picture', 'part.svg', *moments[:2], '--from', '20', '--to', str(middle))
    rows_of(drawn_bars((trial.folder / 'part.svg').read_text(), 20, middle), bars_of(one, 20, middle))


def pictures_are_refused(trial):
    """Words that don't stand together are refused, and a range of cycles without an event"""
    kept_runs(trial)
    timed, picture = ('timed.log', '--moments', 'timed.moments'), ('--picture', 'no.svg')
    for words, status, line in (
            (('walks.log', *timed), 2, 'error: one log, or with --picture two'),
            (('walks.log', 'seed.log', *timed, *picture), 2, 'error: one log, or with --picture two'),
            (('walks.log', *timed, *picture), 2, 'error: --moments and --title stand once for each log, or not at all'),
            ((*timed, '--title', 'one'), 2, 'error: --title, --from and --to are of a picture'),
            ((*timed, *picture, '--from', '9', '--to', '9'), 2, 'error: the last cycle stands behind the first one'),
            ((*timed, *picture, '--from', 'x'), 2, 'error: argument --from: x is no cycle'),
            ((*timed, *picture, '--from', '9999999'), 1, 'timed: no event is between these cycles')):
        told = said(trial, 'timeline', *words, ends_with=status)
        expect(re.fullmatch(f'alewife-timeline: {line}', told), f'{" ".join(words)}: {told}')
    expect(not (trial.folder / 'no.svg').exists(), 'a picture was written')


def other_moments_are_refused(trial):
    """Moments of another run, or by other costs, what is none, and words without a meaning are refused by the three scripts, with a line"""
    kept_runs(trial)
    text = (trial.folder / 'timed.moments').read_text()
    trial.keep('none', b'hello\n')
    trial.keep('fewer.moments', re.sub(r'entries (\d+)', 'entries 9', '\n'.join([*text.split('\n')[:14], 'end', ''])).encode())
    more = text.replace('\nend\n', '\n9999 9999 I 0\nend\n')
    trial.keep('more.moments', re.sub(r'entries (\d+)', lambda count: f'entries {int(count[1]) + 1}', more).encode())
    trial.keep('cut.moments', '\n'.join(text.split('\n')[:30]).encode())
    trial.keep('changed.moments', re.sub(r'(\d+) I 1\n', r'\1 I 2\n', text).encode())
    trial.keep('costs.moments', text.replace(' send 6 ', ' send 600 ').encode())
    kind, cut, other = 'these are no moments: .*', 'the moments are cut, or one has no form', 'the moments are those of another run'
    calls = (('timed.log', 'none', kind), ('timed.log', 'timed.trace', kind), ('timed.log', 'cut.moments', cut), ('timed.log', 'walks.moments', other),
             ('walks.trace', 'seed.moments', other), ('timed.log', 'fewer.moments', other), ('timed.log', 'more.moments', other),
             ('timed.log', 'changed.moments', other),
             ('timed.log', 'gone.moments', "can't read gone.moments: No such file or directory"), ('none', 'timed.moments', 'this is no log: .*'))
    for tool in ('log', 'timeline', 'top'):
        for log, moments, line in calls:
            told = said(trial, tool, log, '--moments', moments, ends_with=1, is_late=moments in ('changed.moments', 'cut.moments'))
            expect(re.fullmatch(f'alewife-{tool}: {line}', told), f'{tool} {log} --moments {moments}: {told}')
    for tool, words, status, line in (
            ('timeline', ('timed.log', '--moments', 'costs.moments'), 1, "the moments aren't those of their costs: at stamp .*"),
            ('timeline', ('timed.log',), 1, 'a log has no cycles: name its moments .*'), ('timeline', ('spill.trace',), 1, 'refused: .* not finished'),
            ('log', ('timed.log', '--moments', 'timed.moments', '--counts'), 2, 'error: argument --counts: not allowed with argument --moments'),
            ('top', ('timed.log', '--moments', 'timed.moments', '--by', 'misses'), 2, 'error: argument --by: of cycles it is one of cycles, waited'),
            ('top', ('timed.log', '--moments', 'timed.moments', '--idle', 'look'), 2, 'error: argument --idle: it names a function of --elf'),
            ('top', ('timed.log', '--by', 'waited'), 2, 'error: argument --by: of a profile it is one of misses, .*')):
        told = said(trial, tool, *words, ends_with=status, is_late='costs.moments' in words)
        expect(re.fullmatch(f'alewife-{tool}: {line}', told), f'{tool} {" ".join(words)}: {told}')


def entries_in(text):
    """The events of a trace, in the order of its entries."""
    return [row.split(' ', 1)[1] for row in text.decode().partition('\nentries ')[2].split('\n')[1:-2]]


def moments_of_other_programs_are_refused(trial):
    """Moments of another program with the same events and other cycles are refused beside a trace, those of other sizes or parameters beside a log too"""
    traces = {}
    for name, source in (('reads', READS), ('writes', WRITES)):
        traces[name] = trial.program(['run', '--cycles', '0', '--write', 'trace'], trial.program(['asm'], source.encode()))
        keep_run(trial, name, traces[name])
    expect(entries_in(traces['reads']) == entries_in(traces['writes']), 'the two programs have other events')
    text = {name: (trial.folder / f'{name}.moments').read_text() for name in traces}
    expect(text['reads'] != text['writes'], 'the two programs have the same cycles')
    for name, change in (('nodes', ('mesh 2 1', 'mesh 1 2')), ('home', ('lines 1', 'lines 2')), ('pointers', ('pointers 4', 'pointers 2')),
                         ('limit', ('limit 262144', 'limit 262143'))):
        expect(change[0] in text['reads'], f'{change[0]} is not in the moments')
        trial.keep(f'{name}.moments', text['reads'].replace(*change).encode())
    calls = [(tool, 'reads.trace', name) for tool in ('log', 'timeline', 'top', 'view', 'gdb') for name in ('writes', 'nodes', 'home', 'pointers', 'limit')]
    calls += [(tool, 'reads.log', name) for tool in ('log', 'timeline', 'top') for name in ('nodes', 'home', 'pointers', 'limit')]
    for tool, run, name in calls:
        line = said(trial, tool, run, '--moments', f'{name}.moments', ends_with=1, is_late=name == 'writes')
        expect(line == f'alewife-{tool}: the moments are those of another run', f'{tool} {run} --moments {name}.moments: {line}')


TRIALS = (columns_are_the_moments, rows_hold_each_moment_once, arrows_are_messages, ports_say_when_messages_arrive, timelines_ask_the_program,
          tables_have_the_sums_of_time, lines_of_sources_are_told, functions_and_variables_are_told, pictures_have_each_event, pictures_are_refused,
          other_moments_are_refused, moments_of_other_programs_are_refused)
