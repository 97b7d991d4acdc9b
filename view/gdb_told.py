"""What the debugger says: threads, the way to a stop, and the answers of `monitor`."""
import traps
from alewife import LINE_BYTES, SHARED
from frames import ViewError
from statements import reached_by, told_standing

WAYS = {'ready': 'ready', 'wait': 'waits for line', 'hold': 'has just got line', 'trapped': 'trapped with tt', 'halted': 'halted'}
HELP = '''monitor stamp [N]        where the run is; or goes to a stamp, of which GDB learns by `maintenance flush register-cache`
monitor line L           a line, by its number, an address in it, or a variable: its entry, its copies, its messages, who waits for it
monitor messages         all messages on their way, and those that wait for a trap handler
monitor why [CONTEXT]    the last miss of the thread that stopped last or was chosen, or of a context, and its cause
monitor prints on|off    whether a print stops the run (on)
monitor help             this'''
HELP_OF_CYCLE = '''monitor cycle [N]        the cycles of the events around; or goes before the first event that starts at cycle N or later, as `stamp` does
'''


def told_thread(session, number):
    """A context with its node and its status."""
    way, _, of = session.context(number).status.partition(' ')
    return f'context {number} on node {number // session.run.image.sizes.contexts}, {WAYS[way]}{of and f" {of}"}'


# ---- the way to a stop


def told_event(session, place):
    """A print or a trap in words."""
    event, context = session.run.event(place), session.run.owners[place]
    deed = f'prints {event.said["prints"]}' if event.said['prints'] else f'traps with tt {event.said["traps"]} in {event.said["statement"]}'
    return f'context {context} {deed} at stamp {event.stamp}{told_why_trapped(session, event, place) if event.said["traps"] else ""}'


def told_why_trapped(session, event, place):
    """The assertion that traps, or the address of a load or a store that does."""
    pc = event.number('pc')
    if pc in session.code.assertions:
        return f': {session.code.assertions[pc][0]}{session.code.asserted(pc)}'
    if session.code.word(pc) is None:
        return ''
    registers = session.run.state(place).context(session.run.owners[place]).registers
    return traps.told_access(event.number('traps'), event.said['statement'], reached_by(session.code.word(pc), registers))


def told_way(session, start, stop, going):
    """The lines of the way from a place to a stop: the prints and traps on it, or backwards the one at which it stops, and the ends."""
    run = session.run
    seen = sorted({*run.index.prints, *run.index.traps})
    if going.forwards:
        lines = [told_event(session, place) for place in seen if start <= place < stop.place and going.moves(run.owners[place], place)]
    else:
        lines = [told_event(session, stop.event)] if stop.event in seen and stop.place > stop.event else []
    if stop.reason == 'replaylog:end;':
        lines.append(f'{f"the run has ended: {run.ended}" if run.ended else "the trace stops here"}, at stamp {run.stamp(run.end)}')
        lines += told_standing(session.code, run.state(run.end).contexts()) if run.ended == 'limit' else []
    if stop.reason == 'replaylog:begin;':
        lines.append('the run begins here')
    is_behind = going.forwards or stop.event is not None and stop.event < stop.place
    return lines + (told_behind(session, stop.place) if is_behind else told_before(session, stop.place))


# ---- cycles


def told_name(session, line):
    """A line by its number, as a text, with what lies there."""
    return f'line {line}{session.code.name(SHARED + LINE_BYTES * int(line))}'


def told_deed(session, place):
    """What the event that is next at a place does, in few words."""
    event = session.run.event(place)
    said = event.said
    if event.letter == 'I':
        missed = f' and misses {told_name(session, said["misses"])}' if said['misses'] else ''
        return f'context {session.run.owners[place]} runs {said["statement"]}{missed}'
    line = told_name(session, said['line'])
    if event.letter == 'E':
        return f'node {said["node"]} evicts {line}'
    taker = f'{"the trap handler of " if event.letter == "H" else ""}node {said["node"]}'
    return f'{taker} takes {said["kind"]} of {line} from node {said["sender"]}'


def told_cycles(session, place):
    """The cycles of the event that is next at a place, and what it does."""
    moment = session.run.moment(place)
    return f'cycles {moment.start} to {moment.finish}: {told_deed(session, place)}'


def told_behind(session, place):
    """The line of the event behind which a place is, where there are moments, and such an event."""
    return [f'behind {told_cycles(session, place - 1)}'] if session.run.moments and place else []


def told_before(session, place):
    """The line of the event before which a place is, where there are moments, and such an event."""
    return [f'before {told_cycles(session, place)}'] if session.run.moments and place < session.run.end else []


# ---- the answers of monitor


def told_message(session, message):
    """A message on its way, or in a queue."""
    name = session.code.name(SHARED + LINE_BYTES * message.line)
    where = 'waits for the trap handler of' if message.where == 'packet' else 'goes to'
    return f'{message.kind} of line {message.line}{name} from node {message.sender} {where} node {message.receiver}, sent at stamp {message.stamp}'


def told_messages(session, words):
    """All messages on their way."""
    found = session.run.state(session.place).messages()
    return [told_message(session, message) for message in found] or ['no message is on its way']


def number_of(text):
    """A number, in decimal or as 0x and digits."""
    try:
        return int(text, 0)
    except ValueError as fault:
        raise ViewError(f'{text} is neither a number nor a name that is known') from fault


def line_named(session, words):
    """The line that the words of a command name, by its number, an address, or the name of a variable."""
    if len(words) != 2:
        raise ViewError('which line? Its number, an address in it, or the name of a variable')
    run, named = session.run, dict((name, address) for address, name in getattr(session.code, 'symbols', ()))
    number = named[words[1]] if words[1] in named else number_of(words[1])
    line = number if number < SHARED else run.line_of(number)
    count = run.image.sizes.width * run.image.sizes.height * run.image.sizes.lines
    if line is None or not 0 <= line < count:
        raise ViewError(f'there is no line {words[1]}: the last one is {count - 1}')
    return line


def told_line(session, words):
    """A line: where it is, its value, its entry, copies, messages, and who waits."""
    run, state = session.run, session.run.state(session.place)
    line = line_named(session, words)
    address = SHARED + LINE_BYTES * line
    yield f'line {line} at 0x{address:08x}{session.code.name(address)}, home node {run.home_of(line)}, at {run.told_place(session.place)}'
    yield f'  value   {" ".join(state.value(line))}'
    yield f'  entry   {state.entry(line)}'
    for mode in ('read', 'write'):
        nodes = [str(copy.node) for copy in state.copies(line) if copy.mode == mode]
        asking = [str(node) for node, what in state.asked(line) if what == mode]
        yield from [f'  copies to {mode} at nodes {", ".join(nodes)}'] if nodes else []
        yield from [f'  asked for to {mode} by nodes {", ".join(asking)}'] if asking else []
    yield from (f'  {told_message(session, message)}' for message in state.messages() if message.line == line)
    waiting = [str(context.number) for context in state.waiting_for(line)]
    yield from [f'  contexts that wait for it: {", ".join(waiting)}'] if waiting else []


def told_stamp(session, words):
    """The place of the run, and the way to another one."""
    if len(words) > 1:
        session.forget()
        session.place = session.run.place_of(number_of(words[1]))
    yield f'at {session.run.told_place(session.place)}, with {session.place} of {session.run.end} events'
    yield from told_behind(session, session.place) + told_before(session, session.place)


def told_cycle(session, words):
    """The place of the run with the cycles around, and the way to the first event that starts at a cycle or later."""
    if len(words) > 1:
        place = session.run.place_from(number_of(words[1]))
        session.forget()
        session.place = place
    return told_stamp(session, words[:1])


def misses_of(run, place, context):
    """The places of a context's misses before a place, the last first."""
    node, slot = divmod(context, run.head.contexts)
    form = f' I {node} slot {slot} '
    return [at for at in range(place - 1, -1, -1) if form in run.lines[at] and ' misses ' in run.lines[at]]


def told_why(session, words):
    """The last miss of a context, and its cause. Where it asked again after BUSY, the misses before that follow."""
    run, context = session.run, number_of(words[1]) if len(words) > 1 else session.chosen
    if context not in range(session.count()):
        raise ViewError(f'there is no context {context}: the last one is {session.count() - 1}')
    places = misses_of(run, session.place, context)
    if not places:
        yield f'context {context} has missed nothing up to {run.told_place(session.place)}'
    for place in places:
        event = run.event(place)
        line = event.number('misses')
        what = f'line {line}{session.code.name(SHARED + LINE_BYTES * line)} to {event.said["mode"]} it, at {event.said["pc"]} {event.said["statement"]}'
        yield f'context {context} missed {what}, at stamp {event.stamp}: {run.reason(place)}'
        if not run.reason(place).startswith('asks again after BUSY'):
            return


def told_prints(session, words):
    """Whether prints stop the run."""
    if len(words) > 1 and words[1] not in ('on', 'off'):
        raise ViewError('on or off?')
    session.stops.prints = words[1] == 'on' if len(words) > 1 else session.stops.prints
    return [f'a print {"stops the run" if session.stops.prints else "is told, and the run goes on"}']


COMMANDS = {'stamp': told_stamp, 'line': told_line, 'messages': told_messages, 'why': told_why, 'prints': told_prints}
COMMANDS_WITH_MOMENTS = COMMANDS | {'cycle': told_cycle}


def told(session, words):
    """The answer of a command."""
    try:
        has_moments = session.run.moments is not None
        command = (COMMANDS_WITH_MOMENTS if has_moments else COMMANDS).get(words[0] if words else 'help')
        return '\n'.join(command(session, words)) if command else HELP_OF_CYCLE * has_moments + HELP
    except ViewError as error:
        return str(error)
