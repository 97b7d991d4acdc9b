"""Trials of the debugger, for view/check: a small client speaks its protocol, and GDB itself is run on scripts where it is there."""
import re
import shlex
import subprocess
from collections import Counter
from pathlib import Path

import cross
import logs
from again import SPACING
from alewife import LINE_BYTES, SHARED, checkpoint_of, digest_of, image_of, no_debugger, run_of
from gdb_session import PC
from gdb_wire import INTERRUPT, Wire
from page_trials import keep_timed, timed_entries
from trials import LeftOut, expect

HERE = Path(__file__).resolve().parent
EXAMPLES = HERE.parent / 'examples'
IMAGE_DIGEST = '3a97e8d3889afe6d'
REGISTERS, NAMED = 31, {'y': 64, 'psr': 65, 'pc': 68, 'npc': 69}
EVICTING = ('--pointers', '2', '--sets', '4', '--evict', '20')
WALKS = b'''        .mesh   2,1
        .contexts 2
        .lines  4
        set     0x40000000,%g1
        sll     %o0,2,%g2
        mov     5,%g3
again:  ld      [%g1+%g2],%g4
        st      %g4,[%g1+4]
        swap    [%g1+64],%g4
        ldub    [%g1+97],%g4
        subcc   %g3,1,%g3
        bne     again
        nop
        or      %g0,%g4,%o0
        ta      1
        ta      0
'''
TRAPPING = (
    ('st %g0,[%g1+4]', 0x1230, 'traps with tt 0x09 in st %g0,[%g1+4] at stamp 3: store at 0x00001234, outside shared data'),
    ('lduh [%g1+%g2],%g3', 0x40000001, 'traps with tt 0x07 in lduh [%g1+%g2],%g3 at stamp 3: load at 0x40000001, which is no multiple of 2'),
    ('swap [%g1],%g3', 0x40000002, 'traps with tt 0x07 in swap [%g1],%g3 at stamp 3: swap at 0x40000002, which is no multiple of 4'),
    ('ldstub [%g1-1],%g3', 0x40000000, 'traps with tt 0x09 in ldstub [%g1-1],%g3 at stamp 3: ldstub at 0x3fffffff, outside shared data'))
TRACES = ('two_writers', 'lock', 'workload', 'walks')


class Client:
    """A debugger's side of the protocol, on the trace of a trial's folder."""

    def __init__(self, trial, name, *words):
        self.process = subprocess.Popen([HERE / 'alewife-gdb', f'{name}.trace', '--program', trial.binary, *words], cwd=trial.folder,
                                        stdin=subprocess.PIPE, stdout=subprocess.PIPE, stderr=subprocess.PIPE)
        self.wire, self.said = Wire(self.process.stdout.fileno(), self.process.stdin.fileno()), []
        expect(b'ReverseContinue+' in self.ask('qSupported:swbreak+') and self.ask('QStartNoAckMode') == b'OK', f'{name}: the greeting')
        self.wire.acknowledges = False

    def ask(self, text):
        """The answer to a packet. What is said before it is kept."""
        self.wire.send(text.encode())
        while True:
            body = self.wire.receive()
            if body is None or body == b'OK' or body[:1] != b'O':
                return body
            self.said.append(bytes.fromhex(body[1:].decode()).decode().strip())

    def stop(self, text):
        """Where a packet leads: the thread, the reason, and the place in words."""
        body = self.ask(text).decode()
        match = re.fullmatch(r'T(..)thread:(\w+);((?:watch|rwatch|awatch|swbreak|hwbreak|replaylog):\w*;)?(?:\w\w:\w+;)+', body)
        expect(match, f'{text}: {body}')
        return int(match[2], 16) - 1, (match[3] or '').rstrip(';'), match[1]

    def monitor(self, text):
        """What a command of our own answers."""
        return bytes.fromhex(self.ask(f'qRcmd,{text.encode().hex()}').decode()).decode().strip()

    def memory(self, address, count):
        """Bytes of memory."""
        return bytes.fromhex(self.ask(f'm{address:x},{count:x}').decode())

    def close(self):
        """Ends the session, which has to end with 0 and nothing on standard error."""
        expect(self.ask('D') == b'OK', 'D')
        said = self.process.communicate()[1]
        expect(self.process.returncode == 0 and not said, f'status {self.process.returncode}, {said}')


# ---- what has to come


def keep_traces(trial):
    """Keeps the traces of a workload and of a program with two contexts a node beside those of the folder."""
    images = {'workload': trial.program(['gen', '--seed', '5', '--width', '3', '--height', '2', '--size', '20'], b''), 'walks': trial.program(['asm'], WALKS)}
    for name, image in images.items():
        trial.keep(f'{name}.trace', trial.program(['run', *EVICTING, '--write', 'trace'], image))


def log_of(trial, name):
    """The events of a trace that has an end, in the order of stamps, the PC at which each context stands at the end, and how many a node has."""
    lines = trial.program(['replay', '--write', 'log'], (trial.folder / f'{name}.trace').read_bytes(), (0, 4, 5)).decode().splitlines()
    head, *parts = logs.parts_of(lines)
    events = sorted(parts[:head.events], key=lambda event: event.stamp)
    return events, [context.pc for context in parts[head.events:-1]], head.contexts


def pcs_behind(events, owners, standing):
    """To which PC each instruction leads, by its place."""
    last, found = dict(enumerate(standing)), {}
    for place in sorted(owners, reverse=True):
        found[place] = last[owners[place]]
        last[owners[place]] = events[place].number('pc')
    return found


def registers_in(state):
    """The registers of each context in the lines of a state, by GDB's number."""
    for line in state:
        match = re.fullmatch(r'context \d+ (?:wait |hold |trapped )?\S+ (\S+) (\S+) (\S+) (\d{4}) (.*)', line)
        if match:
            pc, npc, y, codes, words = match.groups()
            yield {**dict(enumerate(words.split(), 1)), 0: '0x00000000', 64: y, 65: f'0x{int(codes, 2) << 20:08x}', 68: pc, 69: npc}


def messages_in(state):
    """What the debugger has to say of the messages in the lines of a state: of packets, and then of those on links."""
    packets, sent, node = [], [], None
    for name, *words in map(str.split, state):
        node = words[0] if name == 'node' else node
        if name == 'packet':
            packets.append('{0} of line {1} from node {2} waits for the trap handler of node {node}, sent at stamp {3}'.format(*words, node=node))
        if name == 'link':
            sent.append('{2} of line {3} from node {4} goes to node {1}, sent at stamp {5}'.format(*words))
    return '\n'.join(packets + sent) or 'no message is on its way'


def flat_memory(trace, events, place):
    """Shared data after so many events, by its stores in their order: the image's lines by address, and then what was stored."""
    memory = {}
    for line, body in image_of(run_of(trace.decode().splitlines()[1:-1]).image).data.items():
        memory.update((SHARED + LINE_BYTES * line + at, byte) for at, byte in enumerate(body))
    for event in events[:place]:
        if event.letter == 'I' and event.said['written_at']:
            count = event.number('written_bytes')
            memory.update((event.number('written_at') + at, byte) for at, byte in enumerate(event.number('written').to_bytes(4, 'big')[4 - count:]))
    return memory


# ---- the trials


def expect_registers(client, state, what):
    """Ends the trial where the debugger shows other registers of a context than the lines of a state."""
    for context, registers in enumerate(registers_in(state)):
        expect(client.ask(f'Hg{context + 1:x}') == b'OK', f'{what}: thread {context + 1}')
        shown = re.findall('.{8}', client.ask('g').decode())
        wrong = [number for number, word in registers.items() if shown[number] != word[2:]]
        expect(not wrong and client.ask('p44').decode() == registers[68][2:], f'{what}: context {context}, registers {wrong}')


def states_are_shown(trial):
    """The debugger shows at stamps the registers that save writes there, and memory as all stores up to there leave it"""
    keep_traces(trial)
    for name in TRACES:
        trace, client = (trial.folder / f'{name}.trace').read_bytes(), Client(trial, name)
        events, stamps = log_of(trial, name)[0], trial.states(name)[0]
        for stamp in stamps[::max(1, len(stamps) // 12)]:
            expect(client.monitor(f'stamp {stamp}').startswith(f'at stamp {stamp}, with '), f'{name}: stamp {stamp}')
            expect_registers(client, trial.states(name)[1][stamps.index(stamp)].splitlines(), f'{name}: stamp {stamp}')
            memory = flat_memory(trace, events, sum(event.stamp <= stamp for event in events))
            wrong = [address for address in memory if client.memory(address, 1)[0] != memory[address]]
            expect(not wrong, f'{name}: stamp {stamp}, memory at {[hex(each) for each in wrong[:4]]}')
        expect(memory, f'{name}: nothing is stored')
        client.close()


def checkpoints_lead_on(trial):
    """In a run of several checkpoints too the debugger shows the registers and the messages that save writes, whichever way it comes to a stamp"""
    words = ['run', '--limit', '2000', '--pointers', '1', '--write', 'trace']
    trace = trial.program(words, trial.program(['asm'], (EXAMPLES / 'lock.s').read_bytes()), (5,))
    trial.keep('long.trace', trace)
    client, places = Client(trial, 'long'), set()
    for stamp in (1900, 1901, 1200, 1100, 1000, 1001, 999, 2000):
        told = re.fullmatch(rf'at stamp {stamp}, with (\d+) of \d+ events', client.monitor(f'stamp {stamp}'))
        places.add(int(told[1]) // SPACING)
        state = checkpoint_of(trial.program(['save', '--at', str(stamp)], trace).decode())[1]
        expect_registers(client, state, f'stamp {stamp}')
        expect(client.monitor('messages') == messages_in(state), f'stamp {stamp}: {client.monitor("messages")}')
    expect(len(places) > 1, f'only {places}')
    client.close()


def turns_of(events, contexts):
    """The places of turns by context, and all instructions by place."""
    turns, owners = {}, {}
    for place, event in enumerate(events):
        if event.letter == 'I':
            owners[place] = event.number('node') * contexts + event.number('slot')
            if not event.said['misses']:
                turns.setdefault(owners[place], []).append(place)
    return turns, owners


def steps_are_turns(trial):
    """A step leads behind the context's next turn, backwards before its last one, and at the ends there are no more"""
    keep_traces(trial)
    for name in ('two_writers', 'walks'):
        (events, _, contexts), client = log_of(trial, name), Client(trial, name)
        turns, _ = turns_of(events, contexts)
        client.monitor('prints off')
        for context, places in turns.items():
            client.monitor('stamp 0')
            for place in places:
                expect(client.stop(f'vCont;s:{context + 1:x}')[:2] == (context, ''), f'{name}: a step of context {context}')
                expect(f'with {place + 1} of {len(events)} events' in client.monitor('stamp'), f'{name}: {client.monitor("stamp")}, and not behind {place}')
            expect(client.stop(f'vCont;s:{context + 1:x}')[1] == 'replaylog:end', f'{name}: the end')
            expect(client.ask(f'Hc{context + 1:x}') == b'OK', 'Hc')
            for place in reversed(places):
                expect(client.stop('bs')[:2] == (context, ''), f'{name}: a step back of context {context}')
                expect(f'with {place} of {len(events)} events' in client.monitor('stamp'), f'{name}: {client.monitor("stamp")}, and not before {place}')
            expect(client.stop('bs')[1] == 'replaylog:begin', f'{name}: the beginning')
        client.close()


def stops_of(client, going):
    """All stops to an end, each as (context, reason, how many events have happened)."""
    found = []
    while not found or not found[-1][1].startswith('replaylog'):
        context, reason, _ = client.stop(going)
        found.append((context, reason, int(re.search(r'with (\d+) of', client.monitor('stamp'))[1])))
    return found[:-1]


def both_ways(client, forwards, backwards, what):
    """Goes to all stops of what is put in and back: forwards behind these turns, backwards before these."""
    client.monitor('stamp 0')
    expect([place - 1 for _, _, place in stops_of(client, 'vCont;c')] == forwards, f'{what} forwards')
    client.ask('Hc-1')
    expect([place for _, _, place in stops_of(client, 'bc')] == backwards, f'{what} backwards')


def watches_are_accesses(client, events, turns, address):
    """Tries the three kinds of watchpoints on a word."""
    for number, kinds in ((2, ('written_at',)), (3, ('read_at',)), (4, ('read_at', 'written_at'))):
        seen = [place for place in turns if any(events[place].said[kind] and events[place].number(kind) & ~3 == address for kind in kinds)]
        expect(seen and client.ask(f'Z{number},{address:x},4') == b'OK', f'Z{number}')
        both_ways(client, seen, seen[::-1], f'Z{number} at 0x{address:x}')
        expect(client.ask(f'z{number},{address:x},4') == b'OK', f'z{number}')


def stops_are_events(trial):
    """Breakpoints, watchpoints and prints stop at each event that they are for and at no other, both ways"""
    keep_traces(trial)
    for name in TRACES:
        (events, standing, contexts), client = log_of(trial, name), Client(trial, name)
        by_context, owners = turns_of(events, contexts)
        turns = sorted(place for places in by_context.values() for place in places)
        prints = [(owners[place], '', place + 1) for place in turns if events[place].said['prints']]
        expect(stops_of(client, 'vCont;c') == prints and stops_of(client, 'bc') == prints[::-1], f'{name}: prints')
        client.monitor('prints off')
        stored = [place for place in turns if events[place].said['read_at'] or events[place].said['written_at']]
        both = [events[place].number('written_at') & ~3 for place in stored if events[place].said['read_at'] and events[place].said['written_at']]
        watches_are_accesses(client, events, turns, both[0] if both else events[stored[0]].number('written_at') & ~3)
        pc = events[stored[0]].number('pc')
        behind = pcs_behind(events, owners, standing)
        came = [place for place in turns if behind[place] == pc and not events[place].said['halts']]
        expect(client.ask(f'Z0,{pc:x},4') == b'OK', 'Z0')
        both_ways(client, came, [place for place in turns if events[place].number('pc') == pc][::-1], f'{name}: a breakpoint at 0x{pc:x}')
        client.close()


def come_to(events, turns):
    """How often each context comes to each address, by (address, context): with each turn but its first."""
    return Counter((events[place].number('pc'), context) for context, places in turns.items() for place in places[1:])


def hits_of(client, pc, contexts):
    """How often each context stops at a breakpoint where its thread is moved alone over it each time; what the others show may not change meanwhile."""
    found = Counter()
    client.monitor('stamp 0')
    client.ask(f'Z0,{pc:x},4')
    while True:
        context, reason, _ = client.stop('vCont;c')
        if reason.startswith('replaylog'):
            client.ask(f'z0,{pc:x},4')
            return found
        client.ask(f'z0,{pc:x},4')
        before = others_of(client, contexts, context)
        found[pc, context] += client.stop(f'vCont;s:{context + 1:x}')[1] == ''
        expect(others_of(client, contexts, context) == before, f'another context moves while {context} leaves 0x{pc:x}')
        client.ask(f'Z0,{pc:x},4')


def breakpoints_lose_nothing(trial):
    """Where a thread is moved alone over its breakpoint, as GDB does, the others stay, and each context that comes to the address stops there once"""
    keep_traces(trial)
    for name in ('lock', 'workload', 'walks'):
        (events, _, contexts), client = log_of(trial, name), Client(trial, name)
        turns, _ = turns_of(events, contexts)
        wanted = come_to(events, turns)
        client.monitor('prints off')
        for pc in {pc: None for (pc, _), _ in wanted.most_common(3)}:
            found = hits_of(client, pc, len(turns))
            expect(found == Counter({key: count for key, count in wanted.items() if key[0] == pc}), f'{name}: at 0x{pc:x} {found}')
        client.close()


def others_of(client, count, context):
    """The registers of all contexts but one."""
    found = []
    for other in range(count):
        if other != context:
            client.ask(f'Hg{other + 1:x}')
            found.append(client.ask('g'))
    return found


def traps_on_data_have_addresses(trial):
    """Of a load or a store that traps the debugger and alewife-log say the address, and why the machine refuses it"""
    for statement, base, told in TRAPPING:
        image = trial.program(['asm'], f'        set     0x{base:08x},%g1\n        {statement}\n        ta 0\n'.encode())
        trial.keep('data.trace', trial.program(['run', '--write', 'trace'], image, (4,)))
        client = Client(trial, 'data')
        expect(client.stop('vCont;c')[0] == 0 and client.said == [f'context 0 {told}'], f'{statement}: {client.said}')
        client.close()
        ran = subprocess.run([HERE / 'alewife-log', 'data.trace', '--program', trial.binary], cwd=trial.folder, capture_output=True, text=True)
        line = next(row for row in ran.stdout.splitlines() if 'TRAPS' in row)
        expect(line.endswith(f'; TRAPS with tt {told[14:18]}: {told.partition(": ")[2]}'), line)


def lines_begin_as_the_image_says(trial):
    """The debugger says of a line to which nothing has happened whether the image makes it Trap-Always"""
    source = b'        .mesh 2,1\n        .lines 4\n        .always 1\n        ta 0\n'
    trial.keep('always.trace', trial.program(['run', '--write', 'trace'], trial.program(['asm'], source)))
    client = Client(trial, 'always')
    for line, meta in ((0, 'normal'), (1, 'trap-always')):
        expect(f'\n  entry   RO {meta} hw - sw - acks 0' in client.monitor(f'line {line}'), client.monitor(f'line {line}'))
    client.close()


def runs_are_only_read(trial):
    """Registers and memory can't be written, what isn't known has no answer, and a damaged packet is asked for again"""
    client = Client(trial, 'lock')
    for packet in ('M40000000,4:00000001', 'X40000000,1:a'):
        expect(client.ask(packet) == b'E01', packet)
        expect(client.process.stderr.readline() == b'alewife-gdb: the run is past, and only read: nothing of it can be written\n', packet)
    for packet in ('G' + '0' * 576, 'P44=00000000'):
        expect(client.ask(packet).startswith(b'E.the run is past'), packet)
    expect(client.ask('m0,x') == client.ask('vCont;c:x') == client.ask('qRcmd,x') == b'E01', 'packets of another form')
    expect(client.ask('vUnknown') == client.ask('Z5,0,4') == b'', 'what is unknown')
    expect(client.ask('m3fffff00,4') == client.ask('mfffffffc,4') == b'E01', 'where there is no memory')
    expect(client.ask('Hgffff') == client.ask('Tffff') == b'E01', 'where there is no thread')
    expect(client.monitor('line 99').startswith('there is no line 99') and client.monitor('x').startswith('monitor stamp'), 'commands')
    client.close()
    words = [HERE / 'alewife-gdb', 'lock.trace', '--program', trial.binary]
    for sent, answer in ((b'$?#00', b'-'), (b'$?#3f', b'+$T05thread:1;')):
        ran = subprocess.run(words, cwd=trial.folder, input=sent, capture_output=True)
        expect(ran.stdout.startswith(answer) and ran.returncode == 0, f'{sent}: {ran.stdout[:40]}, {ran.stderr}')
    for refused, line in ((('gone.trace',), "can't read gone.trace: No such file or directory"), (('none',), 'refused: .*'),
                          (('-',), 'error: the trace has to be a file: GDB speaks on standard input')):
        trial.keep('none', b'ALEWIFE TRACE 1\nimage 2\n')
        ran = subprocess.run([words[0], *refused, *words[2:]], cwd=trial.folder, input='', capture_output=True, text=True)
        expect(ran.returncode and re.fullmatch(f'alewife-gdb: {line}', ran.stderr.strip().split('\n')[-1]), f'{refused}: {ran.stderr}')


def answers_come_before_the_log(trial):
    """The debugger is answered, and sees the start, while the log is still being read; what needs the log waits for it, or is interrupted"""
    trial.keep_program('waiting', f'for each in $(seq 600); do [ "$1" != replay ] || [ -e read ] && exec {shlex.quote(trial.binary)} "$@"; sleep 0.1; done; exit 1')
    keep_traces(trial)
    client = Client(trial, 'walks', '--program', str(trial.folder / 'waiting'))
    expect(client.ask('vMustReplyEmpty') == b'' and client.ask('Hg0') == b'OK', 'the greeting')
    expect(b'org.gnu.gdb.sparc.cpu' in client.ask('qXfer:features:read:target.xml:0,fff'), 'the registers')
    expect(client.stop('?') == (0, '', '05') and client.ask('qfThreadInfo') == b'm1,2,3,4', 'the threads at the start')
    registers = client.ask('g').decode()
    expect(registers[8 * 9:8 * 10] == '00000004' and registers[8 * PC:8 * PC + 8] == '00000000', f'the registers at the start: {registers}')
    expect(client.memory(0, 4) == image_of(run_of((trial.folder / 'walks.trace').read_text().splitlines()[1:-1]).image).code[:4], 'the code')
    expect(client.ask('Z0,c,4') == b'OK' and not (trial.folder / 'read').exists(), 'a breakpoint')
    client.wire.send(b'vCont;c')
    client.wire.write(INTERRUPT)
    expect(client.wire.receive().startswith(b'T02thread:1;'), 'an interrupt')
    trial.keep('read', b'')
    expect(client.stop('vCont;c')[1] == 'swbreak:', 'the breakpoint is met')
    client.close()


# ---- cycles


class Moments:
    """A kept run with its moments: its events in the order of places, and how the lines have to begin that say the cycles of each."""

    def __init__(self, trial, name):
        self.events, _, self.contexts = log_of(trial, name)
        entries = timed_entries(*((trial.folder / f'{name}.{kind}').read_bytes() for kind in ('trace', 'moments')))
        self.starts = [(start, at) for at, (_, _, start, _) in enumerate(entries)]
        self.order = sorted(range(len(entries)), key=lambda at: entries[at][0])
        self.lines = [f'cycles {entries[at][2]} to {entries[at][3]}: {self.deed(event)}' for at, event in zip(self.order, self.events)]

    def deed(self, event):
        """What an event has to be called."""
        said = event.said
        if event.letter == 'I':
            missed = f' and misses line {said["misses"]}' if said['misses'] else ''
            return f'context {event.number("node") * self.contexts + event.number("slot")} runs {said["statement"]}{missed}'
        taken = 'node {node} evicts line {line}' if event.letter == 'E' else 'node {node} takes {kind} of line {line} from node {sender}'
        return 'the trap handler of ' * (event.letter == 'H') + taken.format(**said)

    def around(self, place):
        """The lines of the events around a place."""
        behind = [f'behind {self.lines[place - 1]}'] if place else []
        return behind + ([f'before {self.lines[place]}'] if place < len(self.lines) else [])

    def place_from(self, cycle):
        """The place of the first event that starts at a cycle or later, or None."""
        later = [start for start in self.starts if start[0] >= cycle]
        return self.order.index(min(later)[1]) if later else None


def steps_have_cycles(client, moments, name):
    """Steps through the turns of the first contexts both ways: each stop says the cycles of the turn, and the ends those of the event there."""
    turns, _ = turns_of(moments.events, moments.contexts)
    client.monitor('prints off')
    for context, places in sorted(turns.items())[:2]:
        client.monitor('stamp 0')
        for going, lines in ((f'vCont;s:{context + 1:x}', [f'behind {moments.lines[place]}' for place in places] + moments.around(len(moments.lines))),
                             ('bs', [f'before {moments.lines[place]}' for place in reversed(places)] + moments.around(0))):
            client.ask(f'Hc{context + 1:x}')
            for line in lines:
                client.stop(going)
                expect(client.said[-1] == line, f'{name}: {going} says {client.said[-1]}, and not {line}')
    client.monitor('prints on')


def cycles_are_told(trial):
    """With moments steps both ways say the cycles of the file, of a run by a seed and of a timed one, and one can go to each stamp and cycle"""
    keep_timed(trial)
    letters = set()
    for name in ('seeded', 'timed'):
        moments, client = Moments(trial, name), Client(trial, name, '--moments', f'{name}.moments')
        letters.update(event.letter for event in moments.events)
        steps_have_cycles(client, moments, name)
        for stamp in sorted({0, *(event.stamp for event in moments.events)})[::5]:
            place = sum(event.stamp <= stamp for event in moments.events)
            expect(client.monitor(f'stamp {stamp}').split('\n')[1:] == moments.around(place), f'{name}: {client.monitor("stamp")}')
        for cycle in sorted({start + more for start, _ in moments.starts for more in (0, 1)}):
            place, said = moments.place_from(cycle), client.monitor(f'cycle {cycle}')
            if place is None:
                expect(said == f'no event starts at cycle {cycle} or later: the last start is at {cycle - 1}', f'{name}: {said}')
                continue
            head, *around = said.split('\n')
            expect(head.endswith(f'with {place} of {len(moments.lines)} events') and around == moments.around(place), f'{name}: cycle {cycle}: {said}')
            expect(client.monitor('cycle') == client.monitor('stamp') == said, f'{name}: {client.monitor("cycle")}')
        expect(place is None, f'{name}: the last cycle')
        expect(client.monitor('cycle x') == 'x is neither a number nor a name that is known', 'cycle x')
        client.close()
    expect(letters == set('IDHE'), f'events {letters}')


def without_cycles(lines):
    """Lines but for those that say cycles."""
    return [line for line in lines if not re.match(r'(behind|before) cycles \d+ to \d+: ', line)]


def sessions_differ_by_cycles(trial):
    """A session with moments says the same as one without but for the lines of cycles, of which that has none, and another run's moments are refused"""
    keep_timed(trial)
    plain, timed = Client(trial, 'timed'), Client(trial, 'timed', '--moments', 'timed.moments')
    for packet in ('vCont;c', 'vCont;c', 'vCont;s:3', 'vCont;c', 'bc', 'bs', 'Z0,8,4', 'vCont;c', 'bc', 'z0,8,4', 'bc', 'qfThreadInfo', 'qThreadExtraInfo,2'):
        expect(plain.ask(packet) == timed.ask(packet), packet)
    expect(plain.said and plain.said == without_cycles(timed.said) != timed.said, f'{plain.said}, with moments {timed.said}')
    for command in ('stamp', 'stamp 40', 'line 0', 'messages', 'why', 'why 0', 'prints'):
        said = timed.monitor(command).split('\n')
        expect(plain.monitor(command).split('\n') == without_cycles(said) and (said != without_cycles(said)) == command.startswith('stamp'), f'{command}: {said}')
    expect(plain.monitor('cycle 3') == plain.monitor('help') and 'cycle' not in plain.monitor('help'), plain.monitor('cycle 3'))
    expect(timed.monitor('help') != plain.monitor('help') and timed.monitor('help').endswith(plain.monitor('help')), timed.monitor('help'))
    plain.close()
    timed.close()
    for words in ((), *[('--gdb', '-batch')] * (not no_debugger())):
        for trace, moments, line in (('timed', 'seeded.moments', 'the moments are those of another run'),
                                     ('spill', 'timed.moments', 'the moments are those of another run'),
                                     ('timed', 'gone.moments', "can't read gone.moments: No such file or directory")):
            called = [HERE / 'alewife-gdb', f'{trace}.trace', '--moments', moments, '--program', trial.binary, *words]
            ran = subprocess.run(called, cwd=trial.folder, input='', capture_output=True, text=True)
            expect((ran.returncode, ran.stdout, ran.stderr) == (1, '', f'alewife-gdb: {line}\n'), f'{trace} with {moments}: {ran.returncode}, {ran.stdout}{ran.stderr}')


def check_tools():
    """Leaves out what wants GDB and the cross-compiler where these aren't those of the transcripts."""
    if no_debugger():
        raise LeftOut(no_debugger())
    try:
        image = cross.build([EXAMPLES / 'c' / 'total.c'], cross.Sizes(4, 4, 1, 32))
    except cross.MissingTool as missing:
        raise LeftOut(missing) from missing
    if digest_of(image) != IMAGE_DIGEST:
        raise LeftOut('this compiler makes another image')


def transcripts_come_again(trial):
    """GDB shows what the transcripts of view/sessions have: of C, of assembly, and of two contexts of one node"""
    check_tools()
    for name in ('examples', 'view'):
        (trial.folder / name).symlink_to(HERE.parent / name)
    (trial.folder / 'alewife').symlink_to(trial.binary)
    for file in sorted((HERE / 'sessions').glob('*.shell')):
        for part in ('\n' + file.read_text()).split('\n$ ')[1:]:
            command, _, wanted = part.partition('\n')
            ran = subprocess.run(['sh', '-c', command], cwd=trial.folder, stdout=subprocess.PIPE, text=True)
            expect(ran.stdout.rstrip('\n') == wanted.rstrip('\n'), f'{file.name}: {command}: {ran.stdout}')


TRIALS = (states_are_shown, checkpoints_lead_on, steps_are_turns, stops_are_events, breakpoints_lose_nothing, traps_on_data_have_addresses, lines_begin_as_the_image_says,
          answers_come_before_the_log, runs_are_only_read, cycles_are_told, sessions_differ_by_cycles, transcripts_come_again)
