"""Trials of the stories that alewife-outcomes tells, for view/check: turns come again in the log of the claim, in the program's names."""
import re
import subprocess
from pathlib import Path

import cross
import outcomes
from trials import LeftOut, expect

HERE = Path(__file__).resolve().parent
OUTCOMES = HERE.parent / 'examples' / 'outcomes'
TOLD = re.compile(r' *(\d+)  context (\d+)  (\S.*?)  +(.*)')
NAMED = r'(?:reads )?([a-z]\w*)(?:\[(\d)\])?(?:\.\w+)? = (\d+)(?: \(was (\d+)\))?(?:, in one turn)?'
LOGGED = re.compile(r'(\d+) context (\d+) pc \S+ \S+(?: \S+)?(.*)')
SHARED = """#include "alewife.h"
struct pair { uint32_t left; int16_t right[2]; };
LINE static struct pair pairs[2][3];
LINE static volatile int32_t less;
LINE static uint8_t flag;
LINE static uint32_t *volatile pointer;
void program(uint32_t context, uint32_t contexts)
{
    pairs[1][context].right[1] = -4;
    test_and_set(&flag);
    less = -5;
    pointer = &pairs[0][0].left;
    print(less + pairs[1][1 - context].right[1] + flag + *pointer);
}
"""
VALUES = (('pairs[1][0].right[1] == -4 && less < -4', True), ('flag == 255 and pointer != 0', True), ('pairs[0][2].left + 7 // 2 * 2 > 6', False),
          ('less % 3 == 1 || less >> 1 == -3', True), ('flag & 1 == 0 and not flag == 0', False), ('flag > 0 and 0 < pairs[1][flag - 254].right[1] < 4', False))
WRONG = (('gone > 1', 'the program has no variable gone in shared data'), ('pairs == 1', 'pairs is more than a word'),
         ('pairs[2][0].left', 'pairs has no element 2'), ('less.left', 'less has no member left'), ('less +', "'less \\+' is no expression: invalid syntax"),
         ('less ** 9', "'less \\*\\* 9' has no value here"), ('less / 2', "'less / 2' has no value here"), ('1 << 99', "'1 << 99' has no value here"),
         ('less % 0', "'less % 0' divides by 0"), ('open("x")', '.* is no part of an expression: .*'), ('less if flag else 0', '.* is no part of an expression: .*'))


def kept(trial, name, text, nodes=2, spread=False):
    """Keeps the image and the linked program of a source in C, for so many nodes in a row, whose variables may be spread."""
    trial.keep(f'{name}.c', text.encode())
    try:
        image = cross.build([trial.folder / f'{name}.c'], cross.Sizes(nodes, 1, 1, 32), cross.Options(keep=trial.folder / f'{name}.elf', spread=spread))
    except cross.MissingTool as missing:
        raise LeftOut(missing) from missing
    trial.keep(f'{name}.img', image)
    return f'{name}.img', '--elf', f'{name}.elf'


def said_of(trial, *words):
    """The status of alewife-outcomes, its lines, and its last line on standard error."""
    ran = subprocess.run([HERE / 'alewife-outcomes', '--program', trial.binary, *words], cwd=trial.folder, capture_output=True, text=True)
    return ran.returncode, ran.stdout.splitlines(), ran.stderr.strip().split('\n')[-1]


def told_in(log, addresses):
    """The accesses of the log of a claim that are of these words, as its lines have them, by the number of the turn."""
    found = {}
    for line in log.splitlines()[:-1]:
        number, context, deeds = LOGGED.fullmatch(line).groups()
        accesses = re.findall(r'(reads|writes) (0x\S+) \d (0x\S+)', deeds)
        if any(int(address, 16) & ~3 in addresses for _, address, _ in accesses):
            found[int(number)] = context, {way: (int(address, 16), int(value, 16)) for way, address, value in accesses}
    return found


def stories_are_of_claims(trial):
    """The turns that alewife-outcomes tells are those of the claim's log on words that both contexts use, with what stood there before; the others are counted"""
    for name, end in (('torn', ('--trap', '1')), ('exchanged', ('--trap', '0')), ('cleared', ('--stuck',)), ('torn', ('--outcome', '0')), ('lazy', ('--trap', '1'))):
        words = kept(trial, name, (OUTCOMES / f'{name}.c').read_text())
        claim = said_of(trial, words[0], *end)[1]
        log = trial.program(['audit', '--write', 'log'], ('\n'.join(claim) + '\n').encode(), (0, 9)).decode()
        lines = said_of(trial, *words, *end, '--tell')[1]
        story = [line for line in lines[1:] if TOLD.fullmatch(line)]
        symbols = {name.partition('.')[0]: address for name, address in cross.symbols_of(trial.folder / words[2]).items()}
        users = {}
        for context, address in re.findall(r'^\d+ context (\d+) .*?(?:reads|writes) (0x\S+)', log, re.M):
            users.setdefault(int(address, 16) & ~3, set()).add(context)
        wanted, memory = told_in(log, {address for address, contexts in users.items() if len(contexts) > 1}), {}
        expect(len(wanted) > 2, f'{name}: {len(wanted)} turns on shared words')
        for number, (context, accesses) in wanted.items():
            told = next((TOLD.fullmatch(line) for line in story if int(TOLD.fullmatch(line)[1]) == number), None)
            named = told and re.fullmatch(NAMED, told[4])
            address, value = accesses.get('writes') or accesses['reads']
            expect(named and told[2] == context and symbols[named[1]] + 4 * int(named[2] or 0) == address and int(named[3]) == value, f'{name}: turn {number}: {told}')
            expect(('writes' in accesses) == (named[4] is not None) and ('reads' in accesses) == (told[4].startswith('reads') or told[4].endswith('in one turn')), told[4])
            expect(named[4] is None or int(named[4]) == memory.get(address, 0), f'{name}: turn {number}: {told[4]}, and {memory.get(address, 0)} was there')
            memory.update([accesses['writes']] if 'writes' in accesses else [])
        counted = sum(int(count) for line in lines if not TOLD.fullmatch(line) and 'and then' not in line for count in re.findall(r'(\d+) turns? of context', line))
        expect(f'{len(story) + counted} turns: ' in '\n'.join(lines) and len(story) + counted == len(log.splitlines()) - 1, f'{name}: {len(story)} told, {counted} counted')


def parts_have_names_and_values(trial):
    """Expressions over parts of variables have the value that the program's memory gives them, and what is none is refused"""
    words = kept(trial, 'shared', SHARED)
    for text, holds in VALUES:
        status, lines, said = said_of(trial, *words, '--never', text)
        is_met = any(line.startswith(f'{text}: ') and 'nowhere' not in line for line in lines)
        expect(is_met == holds and status == 4 * holds, f'{text}: status {status}, {lines} {said}')
    for text, line in WRONG:
        status, lines, said = said_of(trial, *words, '--never', text)
        expect(status == 1 and not lines and re.fullmatch(f'alewife-outcomes: {line}', said), f'{text}: {said}')
    lines = said_of(trial, *words, '--words', 'pairs[1],less,flag')[1]
    wanted = ', '.join(f'pairs[1][{at}].{part} = {value}' for at in range(3) for part, value in (('left', 0), ('right[0]', 0), ('right[1]', -4 * (at < 2))))
    groups = [re.fullmatch(r'(.*); context 0 prints .*: outcomes? (.*)', line) for line in lines[1:-1]]
    expect(all(group and group[1] == f'{wanted}, less = -5, flag = 255' for group in groups), f'{lines}')
    expect(sorted(int(at) for group in groups for at in group[2].split(', ')) == [*range(int(lines[0].split()[0]))], f'each outcome is in a group: {lines}')


def statuses_are_the_searchs(trial):
    """alewife-outcomes ends with the status of outcomes: 4 with a trap, 5 where it is stuck or has stopped, also where it tells a story"""
    for name, most, end in (('peterson', None, ('--outcome', '0')), ('exchanged', None, ('--trap', '1')), ('wakeup', None, ('--stuck',)), ('spin', '5', ())):
        image = trial.program(['asm'], (OUTCOMES / f'{name}.s').read_bytes())
        trial.keep(f'{name}.img', image)
        words = ('--most', most) if most else ()
        status = subprocess.run([trial.binary, 'outcomes', *words], input=image, capture_output=True).returncode
        expect(said_of(trial, f'{name}.img', *words)[0] == status, f'{name}: the status is {said_of(trial, f"{name}.img", *words)[0]}, and that of outcomes {status}')
        if end:
            expect(said_of(trial, f'{name}.img', *end, '--tell')[0] == status and said_of(trial, f'{name}.img', *end)[0] == 0, f'{name}: of a story and of a claim')
    for words, line in ((('--tell',), '--tell is of one end: --outcome K, --trap K, --stuck or --first'), (('--never', 'x'), 'names of variables come by --elf'),
                        (('--trace',), '--trace is of one end: --outcome K, --trap K, --stuck or --first'),
                        (('--first', '--stuck'), '--first stops at a trap: it goes with --trap K alone'),
                        (('--tell', '--trap', '0', '--trace'), 'argument --trace: not allowed with argument --tell')):
        status, _, said = said_of(trial, 'spin.img', *words)
        expect((status, said) == (2, f'alewife-outcomes: error: {line}'), said)


STOPPED = ['no outcomes, 4 traps: the search stopped with a trap found, in 16000 places',
           'there may be other traps and outcomes: only a search without --first lists all']


def searches_stop_at_traps(trial):
    """With --first alewife-outcomes searches four times as many places each time till a trap is listed, tells it, and says what that says of others"""
    trial.keep_program('asked', f'[ "$1" != outcomes ] || echo "$3" >> bounds; exec {trial.binary} "$@"')
    words = kept(trial, 'torn', (OUTCOMES / 'torn.c').read_text(), 4)
    status, lines, _ = said_of(trial, *words, '--first', '--program', './asked')
    expect((trial.folder / 'bounds').read_text().split() == ['1000', '4000', '16000'], 'how many places each search keeps')
    traps = [line for line in lines if line.startswith('trap ')]
    expect((status, lines) == (4, [*STOPPED, *traps, 'whether an end can be reached from each place is unknown']) and len(traps) == 4, lines)
    expect(traps == [line for line in said_of(trial, *words)[1] if line.startswith('trap ')], 'they are those of the whole search')
    (_, claim, said), (_, trace, also) = (said_of(trial, words[0], '--first', *more) for more in (('--trap', '0'), ('--trace',)))
    expect(said == also == f'alewife-outcomes: {"; ".join(STOPPED)}', f'beside a claim {said}, and beside a trace {also}')
    run = trial.program(['replay', '--write', 'claim'], ''.join(f'{line}\n' for line in trace).encode(), (4,))
    expect(run.decode().splitlines() == claim, 'the trace is that of trap 0')
    status, story, _ = said_of(trial, *words, '--first', '--tell')
    turns = sum(count for _, count in outcomes.turns_in('\n'.join(claim)))
    expect(status == 4 and story[:3] == lines[:3] and story[-1].startswith(f'{turns} turns: '), f'the story of trap 0: {story}')
    for name, more, status, wanted in (('peterson', (), 0, 'no order traps'), ('wakeup', ('--tell',), 5, 'no order traps'), ('exchanged', (), 4, None),
                                       ('spin', ('--most', '5'), 5, 'whether an order traps is unknown'), ('peterson', ('--trace',), 1, None)):
        trial.keep(f'{name}.img', trial.program(['asm'], (OUTCOMES / f'{name}.s').read_bytes()))
        found, lines, said = said_of(trial, f'{name}.img', '--first', *more)
        whole = said_of(trial, f'{name}.img', *(() if more == ('--tell',) else more))[1]
        expect(found == status and lines == [*whole[:1], *[wanted] * bool(wanted), *whole[1:]], f'{name}: {found} {lines} {said}')
    expect(re.fullmatch(r'alewife-outcomes: \d+ outcomes, no traps: these are all, in \d+ places; no order traps', said), said)
    sums = {most: sum(outcomes.growing(('--most', str(most)))) for most in (1, 3999, 4000, 1000000, outcomes.most_taken(), outcomes.most_taken() + 1)}
    expect(all(3 * total <= most for most, total in sums.items()), f'a third more than the last search: {sums}')


# Two slots of one node, each of which stores 1 and then prints the other's word: both print 1 where both stores come first.
SLOTS = """.contexts 2
set 0x40000000,%g1
tst %o0
bne other
mov 1,%g2
st %g2,[%g1]
ld [%g1+4],%o0
ta 1
ta 0
other: st %g2,[%g1+4]
ld [%g1],%o0
ta 1
ta 0
"""


def traces_are_of_claims(trial):
    """The trace that alewife-outcomes writes is that of schedule for the claim, whose run claims the same; turns that are no such run are refused"""
    for name, end in (('exchanged', ('--trap', '0')), ('exchanged', ('--outcome', '1')), ('ticket', ('--outcome', '4')), ('wakeup', ('--outcome', '0'))):
        trial.keep(f'{name}.img', trial.program(['asm'], (OUTCOMES / f'{name}.s').read_bytes()))
        (_, claim, _), (status, trace, said) = (said_of(trial, f'{name}.img', *end, *more) for more in ((), ('--trace',)))
        ends = (4,) if end[0] == '--trap' else (0,)
        text = ''.join(f'{line}\n' for line in trace).encode()
        made = trial.program(['schedule'], ''.join(f'{line}\n' for line in claim).encode(), ends)
        expect((status, said, text) == (0, '', made), f'{name}: {status} {said}')
        expect(trial.program(['replay', '--write', 'claim'], text, ends).decode().splitlines() == claim, f'{name}: its run claims something else')
    trial.keep('slots.img', trial.program(['asm'], SLOTS.encode()))
    status, lines, said = said_of(trial, 'slots.img', '--outcome', '2', '--trace')
    reason = 'a slot of a node parts with its processor only by halting or waiting, and behind a turn of schedule none waits'
    expect(status == 1 and not lines and re.fullmatch(rf'alewife-outcomes: schedule: input refused: turn \d+ not current; {reason}', said), said)
    trial.keep('long.img', trial.program(['asm'], b'set 20000,%g1\nl: subcc %g1,1,%g1\nbne l\nnop\nta 0\n'))
    said = 'alewife-outcomes: schedule: input refused: turn 32768 above limit; with a greater --limit schedule may take their claim'
    expect(said_of(trial, 'long.img', '--outcome', '0', '--trace') == (1, [], said), 'of more turns than the limit has')
    trial.keep('deadlock.img', trial.program(['asm'], (OUTCOMES / 'deadlock.s').read_bytes()))
    wanted = (1, [], 'alewife-outcomes: schedule: input refused: not finished; behind these turns there is no end')
    expect(said_of(trial, 'deadlock.img', '--stuck', '--trace') == wanted, 'of a place that is stuck')


def traps_on_data_are_told(trial):
    """Of a load or a store that traps alewife-outcomes has the address, by the registers of the turns that lead there"""
    words = kept(trial, 'null', '#include "alewife.h"\nvoid program(uint32_t context, uint32_t contexts) { store_word((uint32_t *)(context ? 0x1234 : 0x40000000), 3); }')
    line = next(line for line in said_of(trial, *words)[1] if line.startswith('trap 0: '))
    expect(line.startswith('trap 0: context 1 with tt 0x09 at 0x') and line.endswith('null.c:2 (program): store at 0x00001234, outside shared data'), line)


def places_have_names(trial):
    """alewife-log names stacks by their contexts, and says at the limit who stands where, as examples/c/where does"""
    words = kept(trial, 'locks', (HERE.parent / 'examples' / 'debugging' / 'locks.c').read_text())
    trace = trial.program(['run', '--limit', '2000', '--write', 'trace'], (trial.folder / words[0]).read_bytes(), (5,))
    trial.keep('locks.trace', trace)
    symbols = cross.symbols_of(trial.folder / words[2])
    ran = subprocess.run([HERE / 'alewife-log', 'locks.trace', *words[1:], '--program', trial.binary], cwd=trial.folder, capture_output=True, text=True)
    told = ran.stdout.splitlines()
    where = subprocess.run([HERE.parent / 'examples' / 'c' / 'where', trial.folder / words[2], '--program', trial.binary], input=trace, capture_output=True).stdout.decode()
    stacks = [match.groups() for match in (re.search(r': context (\d): .* at (0x\S+) \(stack (\d)\)', row) for row in told) if match]
    low = [symbols['shared_end'] - (int(context) + 1) * symbols['stack_size'] for context, _, _ in stacks]
    expect(len(stacks) > 1 and all(context == stack and 0 <= int(at, 16) - least < symbols['stack_size'] for (context, at, stack), least in zip(stacks, low)), f'{stacks}')
    expect(told[-3] == 'ended limit' and told[-2] == '2 are in acquire(), locks.c:10: 0-1', told[-3:])
    expect(re.fullmatch(r'2 run at .* \(acquire\) in locks\.c:10 .*: 0-1', where.strip()), where)


def spread_variables_are_named(trial):
    """Of a program whose variables are spread alewife-log names the element and the stack of each context, each at its node, and other variables"""
    words = kept(trial, 'spread', """#include "alewife.h"
struct pair { LINE uint32_t left; uint32_t right; };
static struct pair EACH(own);
static uint32_t count;
void program(uint32_t context, uint32_t contexts) { store_word(&AT(own, context).right, context); store_word(&count, 1); }""", 3, True)
    trial.keep('spread.trace', trial.program(['run', '--write', 'trace'], (trial.folder / words[0]).read_bytes()))
    ran = subprocess.run([HERE / 'alewife-log', 'spread.trace', *words[1:], '--program', trial.binary], cwd=trial.folder, capture_output=True, text=True)
    told = {match.groups() for match in (re.search(r': context (\d): .* at (0x\S+) \((.*?)\)', row) for row in ran.stdout.splitlines()) if match}
    count = cross.symbols_of(trial.folder / words[2])['count']
    own = {(str(context), f'0x{0x40000004 + 512 * context:08x}', 'own+4' + (f' of context {context}' if context else '')) for context in range(3)}
    expect(told >= own | {(str(context), f'0x{count:08x}', 'count') for context in range(3)}, f'{told}, {ran.stderr}')
    stacks = {(context, name): (int(at, 16) - 0x40000000) // 512 for context, at, name in told if name.startswith('stack')}
    expect(stacks == {(str(context), f'stack {context}'): context for context in range(3)}, f'{told}')


def claims_are_named(trial):
    """Given a claim the debugger, the page and alewife-log say what it is, and that a trace is wanted"""
    trial.keep('run.claim', trial.program(['run', '--write', 'claim'], trial.program(['asm'], (OUTCOMES / 'peterson.s').read_bytes())))
    for tool in ('alewife-gdb', 'alewife-view', 'alewife-log', 'alewife-blame'):
        words = ('--bad', '1') if tool == 'alewife-blame' else ()
        ran = subprocess.run([HERE / tool, 'run.claim', *words, '--program', trial.binary], cwd=trial.folder, input='', capture_output=True, text=True)
        line = f'{tool}: this is a claim, for audit and schedule; a trace is wanted: run --write trace writes one. A claim has turns on one memory and no events: .*'
        expect(ran.returncode == 1 and re.fullmatch(line, ran.stderr.strip()), f'{ran.returncode} {ran.stderr}')


TRIALS = (stories_are_of_claims, parts_have_names_and_values, statuses_are_the_searchs, searches_stop_at_traps, traces_are_of_claims, traps_on_data_are_told,
          places_have_names, spread_variables_are_named, claims_are_named)
