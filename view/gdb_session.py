"""A session with GDB: a run's place, its contexts as threads, their registers, memory, and the answers to packets. Nothing of the run is changed."""
import re
import sys
from dataclasses import dataclass, field
from xml.sax.saxutils import quoteattr

import gdb_told
from again import Interrupted
from gdb_stops import Going, Stops
from gdb_wire import INTERRUPT, escaped

OFFERED = (b'PacketSize=4000;QStartNoAckMode+;qXfer:features:read+;qXfer:threads:read+;qXfer:exec-file:read+;vContSupported+;swbreak+;hwbreak+;'
           b'ReverseStep+;ReverseContinue+')
BANKS = [f'{bank}{number}' for bank in 'goli' for number in range(8)]
NAMES = [{'o6': 'sp', 'i6': 'fp'}.get(name, name) for name in BANKS]
CONTROL = ('y', 'psr', 'wim', 'tbr', 'pc', 'npc', 'fsr', 'csr')
FLOATING, PC, NPC, SP, FP = 32, 68, 69, 14, 30
NO_WORD = 'x' * 8
REFUSED, READ_ONLY = b'E01', b'E.the run is past, and only read'
CONTINUES = b'vCont;c;C;s;S'
MOST_READ = 0x1000


def target_description():
    """The description of a context's registers. The system of the name has GDB follow frames by the debugger's lines, as the flat code of C wants."""
    def feature(name, registers):
        """A feature of the description."""
        return f'<feature name="org.gnu.gdb.sparc.{name}">' + ''.join(registers) + '</feature>'

    def register(name, number, kind='uint32'):
        """A register of 32 bits."""
        return f'<reg name="{name}" bitsize="32" regnum="{number}" type="{kind}"/>'

    kinds = {'pc': 'code_ptr', 'npc': 'code_ptr', 'sp': 'data_ptr', 'fp': 'data_ptr'}
    features = [feature('cpu', [register(name, at, kinds.get(name, 'uint32')) for at, name in enumerate(NAMES)]),
                feature('fpu', [register(f'f{at}', FLOATING + at, 'ieee_single') for at in range(32)]),
                feature('cp0', [register(name, 64 + at, kinds.get(name, 'uint32')) for at, name in enumerate(CONTROL)])]
    return ('<?xml version="1.0"?><!DOCTYPE target SYSTEM "gdb-target.dtd"><target version="1.0"><architecture>sparc</architecture>'
            f'<osabi>GNU/Linux</osabi>{"".join(features)}</target>')


def registers_of(context):
    """The registers of a context in GDB's order, each as digits: the machine has no floating point."""
    codes = int(context.codes, 2) << 20
    words = [*context.registers, *[None] * 32, context.y, codes, 0, 0, context.pc, context.npc, None, None]
    return [NO_WORD if word is None else f'{word:08x}' for word in words]


def part_of(text, span):
    """A part of a text, of which the span has the beginning and the length."""
    begin, count = (int(number, 16) for number in span.split(','))
    data = text[begin:begin + min(count, MOST_READ)]
    return (b'm' if begin + len(data) < len(text) else b'l') + escaped(data)


@dataclass
class Session:
    """A session: the run, the names of its memory, the program as a file, its place, the contexts that registers are read of, that go on (all where
    it is None), and that the user has chosen or that stopped last, what stops the run, the text that is read part by part, and what is to be said.
    To leave a breakpoint GDB moves its thread alone. The others are then shown at the place where they stayed, `base`, from which all go on, and
    those that are moved at their own, `alone`. Up to the places `ahead` contexts have stopped before, and don't stop again."""
    run: object
    code: object
    file: object
    place: int = 0
    shown: int = 0
    moved: int = None
    chosen: int = 0
    stops: Stops = None
    base: int = None
    alone: dict = field(default_factory=dict)
    ahead: dict = field(default_factory=dict)
    text: bytes = b''
    said: list = field(default_factory=list)
    is_over: bool = False

    def __post_init__(self):
        self.stops = Stops(self.run)

    # ---- threads

    def count(self):
        """How many contexts there are."""
        sizes = self.run.image.sizes
        return sizes.width * sizes.height * sizes.contexts

    def context(self, number=None):
        """A context where it is shown."""
        number = self.shown if number is None else number
        return self.run.state(self.place_of(number)).context(number)

    def place_of(self, number):
        """The place where a context is shown."""
        return self.place if self.base is None else self.alone.get(number, self.base)

    def thread_of(self, text):
        """The context of a thread's number, which is one more; None of all or any."""
        number = int(text, 16) if not text.startswith('-') else 0
        return number - 1 if number > 0 else None

    def choose(self, body):
        """H: the thread for registers, or the one that goes on."""
        context = self.thread_of(body[2:].decode())
        if context is not None and context >= self.count():
            return REFUSED
        if body[1:2] == b'g':
            self.shown = self.shown if context is None else context
        else:
            self.moved = context
        return b'OK'

    def is_alive(self, body):
        """T: whether there is a thread, which GDB asks where the user chooses it."""
        context = self.thread_of(body[1:].decode())
        if context not in range(self.count()):
            return REFUSED
        self.chosen = context
        return b'OK'

    def threads(self):
        """The list of threads."""
        rows = (f'<thread id="{number + 1:x}" name={quoteattr(gdb_told.told_thread(self, number))}>{self.run.told_place(self.place)}</thread>'
                for number in range(self.count()))
        return f'<?xml version="1.0"?><threads>{"".join(rows)}</threads>'

    # ---- registers and memory

    def register(self, body):
        """p: a register."""
        number, registers = int(body[1:], 16), registers_of(self.context())
        return registers[number].encode() if number < len(registers) else REFUSED

    def memory(self, body):
        """m: bytes of memory, as many as there are from the address on."""
        address, count = (int(text, 16) for text in body[1:].decode().split(','))
        found = []
        for at in range(address, address + min(count, MOST_READ)):
            byte = self.run.byte(self.place, at)
            if byte is None:
                break
            found.append(byte)
        return bytes(found).hex().encode() if found or not count else REFUSED

    def refuse(self, body):
        """M and X: memory isn't written. GDB shows no text of a refusal, and so it is said on standard error, which GDB shows too; not where GDB asks
        with no bytes whether X is there."""
        if not body.partition(b':')[0].endswith(b',0'):
            print(f'alewife-gdb: {READ_ONLY.decode().removeprefix("E.")}: nothing of it can be written', file=sys.stderr, flush=True)
        return REFUSED

    # ---- going on

    def mark(self, body):
        """Z and z: a breakpoint or a watchpoint is put in or taken out."""
        kind, address, count = body[1:].decode().split(';')[0].split(',')
        kind, address, count = int(kind), int(address, 16), int(count, 16)
        if kind > 4:
            return b''
        if kind > 1:
            (self.stops.watchpoints.add if body[:1] == b'Z' else self.stops.watchpoints.discard)((kind, address, count))
        elif body[:1] == b'Z':
            self.stops.breakpoints[address] = kind
        else:
            self.stops.breakpoints.pop(address, None)
        return b'OK'

    def resume(self, body):
        """vCont and its actions: the first that names a thread counts, and one without a thread is for all."""
        actions = [action.partition(':') for action in body.decode().split(';')[1:]]
        stepped = [self.thread_of(thread or '0') for action, _, thread in actions if action[0] in 'sS']
        steps = {self.shown if context is None else context for context in stepped}
        named = [self.thread_of(thread) for _, _, thread in actions if thread]
        is_for_all = None in named or len(named) < len(actions)
        return self.go(True, None if is_for_all else frozenset(named), steps)

    def resume_plainly(self, body):
        """c, s, bc and bs, by the thread that was chosen for going on."""
        steps = {self.shown if self.moved is None else self.moved} if body[-1:] == b's' or body[:1] in b'sS' else set()
        return self.go(body[:1] != b'b', None if self.moved is None else frozenset({self.moved}), steps)

    def go(self, forwards, contexts, steps):
        """Goes on to the next stop, and answers it."""
        if not forwards:
            self.forget()
        start = self.begin(contexts)
        going = Going(forwards, contexts, frozenset(steps), dict(self.ahead))
        stop = self.stops.find(start, going)
        self.said += gdb_told.told_way(self, start, stop, going)
        self.move(stop.place, contexts if forwards else None)
        self.chosen = self.shown = self.chosen if stop.context is None else stop.context
        return self.answer(stop.signal, stop.reason)

    def begin(self, contexts):
        """The place from which contexts go on, or all. One that is shown before its place ahead, and is to move now, may stop there once more."""
        for number in (self.chosen,) if contexts is None and self.base is None else contexts or ():
            if number not in self.alone:
                self.ahead.pop(number, None)
        if contexts is None:
            return self.place if self.base is None else self.base
        return min(map(self.place_of, contexts))

    def move(self, place, contexts):
        """Comes to a place, with contexts alone, so that the others stay where they are, or with all where there are none."""
        if contexts is None:
            self.base = None
            self.alone.clear()
            self.ahead = {number: at for number, at in self.ahead.items() if at > place}
        else:
            self.base = self.place if self.base is None else self.base
            self.alone.update((number, place) for number in contexts)
            self.ahead.update((number, place) for number in contexts)
        self.place = place

    def forget(self):
        """All contexts are at the run's place."""
        self.base = None
        self.alone.clear()
        self.ahead.clear()

    def answer(self, signal=5, reason=''):
        """Why the run stands where it stands, with a few registers."""
        registers = registers_of(self.context())
        few = ''.join(f'{number:02x}:{registers[number]};' for number in (SP, FP, PC, NPC))
        return f'T{signal:02x}thread:{self.shown + 1:x};{reason}{few}'.encode()

    # ---- packets

    def part(self, body):
        """qXfer: a part of a text."""
        _, kind, _, annex, span = body.decode().split(':')
        texts = {'features': target_description, 'threads': self.threads, 'exec-file': lambda: self.file.name}
        if kind not in texts or kind == 'features' and annex != 'target.xml':
            return b'E00'
        self.text = self.text if int(span.partition(',')[0], 16) else texts[kind]().encode()
        return part_of(self.text, span)

    def monitor(self, body):
        """qRcmd: a command of our own, whose answer is shown."""
        text = gdb_told.told(self, bytes.fromhex(body.partition(b',')[2].decode()).decode(errors='replace').split())
        return (text + '\n').encode().hex().encode()

    def leave(self, _):
        """D and k: the end of the session."""
        self.is_over = True
        return b'OK'

    def listed(self, _):
        """qfThreadInfo: the threads, without a text."""
        return b'm' + b','.join(b'%x' % (number + 1) for number in range(self.count()))

    def extra(self, body):
        """qThreadExtraInfo: a thread in words."""
        number = self.thread_of(body.partition(b',')[2].decode())
        return f'{gdb_told.told_thread(self, number)}, {self.run.told_place(self.place)}'.encode().hex().encode()

    def interruptible(self, body):
        """The answer to a packet, or to the user who doesn't wait for the log any more."""
        try:
            return self.of(body)
        except Interrupted:
            return self.answer(2)

    def of(self, body):
        """The answer to a packet; nothing to one that isn't known, and a refusal to one whose words are of another form."""
        for form, answer in ANSWERS:
            if re.match(form, body):
                try:
                    return answer(self, body)
                except ValueError:
                    return REFUSED
        return b''


ANSWERS = (
    (re.escape(INTERRUPT), lambda session, _: session.answer(2)),
    (rb'\?', lambda session, _: session.answer()),
    (rb'qSupported', lambda session, _: OFFERED),
    (rb'qXfer:[\w-]+:read:', Session.part),
    (rb'vFile:', lambda session, body: session.file.answer(body)),
    (rb'qRcmd,', Session.monitor),
    (rb'qfThreadInfo', Session.listed),
    (rb'qsThreadInfo', lambda session, _: b'l'),
    (rb'qThreadExtraInfo,', Session.extra),
    (rb'qAttached', lambda session, _: b'1'),
    (rb'qC$', lambda session, _: b'QC%x' % (session.shown + 1)),
    (rb'qSymbol', lambda session, _: b'OK'),
    (rb'H[gc]', Session.choose),
    (rb'T', Session.is_alive),
    (rb'g$', lambda session, _: ''.join(registers_of(session.context())).encode()),
    (rb'p[0-9a-f]', Session.register),
    (rb'[GP]', lambda session, _: READ_ONLY),
    (rb'[MX]', Session.refuse),
    (rb'm[0-9a-f]', Session.memory),
    (rb'[Zz][0-9]', Session.mark),
    (rb'vCont\?', lambda session, _: CONTINUES),
    (rb'vCont;', Session.resume),
    (rb'b[cs]$|[cCsS]', Session.resume_plainly),
    (rb'[Dk]|vKill', Session.leave),
)


# What GDB asks for first, and what has an answer without the run.
EARLY = (
    (rb'qSupported', lambda _: OFFERED),
    (rb'vMustReplyEmpty|qTStatus', lambda _: b''),
    (rb'vCont\?', lambda _: CONTINUES),
    (rb'H[gc](?:0|-1)$', lambda _: b'OK'),
    (rb'qXfer:features:read:target\.xml:[0-9a-f]+,[0-9a-f]+$', lambda body: part_of(target_description().encode(), body.decode().rpartition(':')[2])),
)


def early(body):
    """The answer to a packet for which no run is needed, or None."""
    return next((answer(body) for form, answer in EARLY if re.match(form, body)), None)


def serve(opened, wire):
    """Answers packets until the session is over, which `opened` gives as soon as it is there. What is said on the way to a stop comes before the stop."""
    session = None
    while session is None or not session.is_over:
        body = wire.receive()
        if body is None:
            break
        if body == b'QStartNoAckMode':
            wire.send(b'OK')
            wire.acknowledges = False
            continue
        answer = early(body) if session is None else None
        if answer is None:
            session = session or opened()
            session.run.is_interrupted = wire.is_interrupted
            answer = session.interruptible(body)
            for line in session.said:
                wire.send(b'O' + (line + '\n').encode().hex().encode())
            session.said.clear()
        wire.send(answer)
    return session or opened()
