"""What view/check tries of pages and pictures: each function is told a trial, and says what is wrong."""
import contextlib
import html
import io
import json
import random
import re
import shutil
import subprocess
from importlib.machinery import SourceFileLoader
from importlib.util import module_from_spec, spec_from_loader
from pathlib import Path
from xml.dom import minidom

import colours
import cross
import frames
import picture
import saved
from alewife import RAN, checkpoint_of, digest_of, image_of, run_of, summary_of
from trials import LeftOut, Wrong, expect

HERE = Path(__file__).resolve().parent
EXAMPLES = HERE.parent / 'examples'
SHOWN = HERE.parent / 'docs' / 'lock.svg'
BROWSERS = ('chromium', 'chromium-browser', 'google-chrome')
QUIET = ('--headless', '--no-sandbox', '--disable-gpu', '--enable-logging=stderr', '--no-first-run', '--disable-extensions', '--disable-sync')
REGISTERS = ('l0', 'l1', 'i0', 'i1', 'o0', 'g2', 'l5', 'g0')
ARITHMETIC = 'addcc subcc addxcc subxcc andcc orcc xorcc andncc orncc xnorcc addx subx umul smul sub xnor'.split()
BRANCHES = ('be', 'bl', 'bleu,a', 'bcs', 'bneg,a', 'bvs', 'ba', 'ba,a', 'bn', 'bn,a', 'bg', 'bgu,a', 'bvc')
COUNTS = {'two_writers': 18, 'spill': 22, 'lock': 81}
TIMED = {'seeded': ('--pointers', '2', '--sets', '4', '--evict', '20'), 'timed': ('--cycles', '1', '--pointers', '1', '--sets', '4')}
VISIT = '''<script>
for (let at = 0; at <= LAST; at += 1) {
  go(at);
  document.body.append(Object.assign(document.createElement('pre'), { className: 'kept', textContent: part('text').textContent }));
}
const keep = (name, value) => { document.body.dataset[name] = JSON.stringify(value); };
const key = (name, target = document.body) => target.dispatchEvent(new KeyboardEvent('keydown', { key: name, bubbles: true }));
keep('loads', [...loadsAt(LAST)].map(([wire, count]) => [...wire.split(' ').map(Number), count]).sort((a, b) => a[0] - b[0] || a[1] - b[1]));
keep('counts', RUN.counted.every((name) => countOf(name, null, LAST)[0] === countOf(name, null, LAST)[1]));
go(0); key('ArrowRight'); key('ArrowRight'); key('ArrowLeft'); key(']'); keep('stepped', VIEW.at);
document.querySelector('#tables button[data-line]').click(); keep('line', VIEW.line);
key('n'); keep('changed', changesOf(VIEW.line).includes(VIEW.at)); part('last').click(); keep('ended', VIEW.at === LAST);
document.querySelector('#tables button[data-line="0"]').focus(); key('ArrowLeft', document.activeElement);
keep('focus', document.activeElement.dataset.line ?? null);
keep('named', [...document.querySelectorAll('button, select, input')].every((each) => each.textContent || each.labels?.length || each.ariaLabel));
go(LAST); key('ArrowLeft'); go(3); keep('back', part('text').textContent === document.querySelectorAll('.kept')[3].textContent);
const within = ({ x, y, width, height }, { left, top, right, bottom }) => x >= left - 1 && x + width <= right + 1 && y >= top - 1 && y + height <= bottom + 1;
const drawn = () => [...document.querySelectorAll('#map text, #map path.message')].every((each) => within(each.getBBox(), BOX.edges));
const boxed = () => [...document.querySelectorAll('#map text[textLength], #map text.pick')].every((each) => each.getBBox().width <= BOX.large + 1);
const fits = () => document.documentElement.scrollWidth <= innerWidth && part('map').scrollWidth <= part('map').clientWidth + 1 && drawn() && boxed();
const all = [];
for (let at = 0; at <= LAST; at += 1) { go(at); all.push(fits()); }
keep('fits', all.every(Boolean));
go(0); key('.'); keep('busier', VIEW.at === BUSY_FRAMES[0]); key('.'); key(','); keep('quieter', VIEW.at === BUSY_FRAMES[0]);
const strip = part('strip').getBoundingClientRect();
part('strip').dispatchEvent(new MouseEvent('click', { bubbles: true, clientX: strip.left + strip.width * 0.999 })); keep('pointed', VIEW.at === LAST);
</script>
'''
LOOK = '''<script>
const keep = (name, value) => { document.body.dataset[name] = JSON.stringify(value); };
const parts = (colour) => colour.match(/[0-9.]+/g).map(Number);
const linear = (part) => (part / 255 <= 0.03928 ? part / 255 / 12.92 : ((part / 255 + 0.055) / 1.055) ** 2.4);
const lightness = (colour) => parts(colour).slice(0, 3).map(linear)
  .reduce((sum, part, at) => sum + part * [0.2126, 0.7152, 0.0722][at], 0);
const contrast = (one, two) => { const [low, high] = [lightness(one), lightness(two)].sort((a, b) => a - b); return (high + 0.05) / (low + 0.05); };
const style = (each) => getComputedStyle(each);
const PAPER = 'rgb(255, 255, 255)';
function ground(each) {
  for (let at = each; at; at = at.parentElement) if ((parts(style(at).backgroundColor)[3] ?? 1) > 0) return style(at).backgroundColor;
  return PAPER;
}
const spans = (begin, size, place) => begin <= place && place <= begin + size;
const holds = ({ x, y, width, height }, other) => spans(x, width, other.x + other.width / 2) && spans(y, height, other.y + other.height / 2);
const shapes = () => [...document.querySelectorAll('#map rect:not(.edge), #map text')];
function below(text, all) {
  const box = text.getBBox(), rect = all.slice(0, all.indexOf(text)).findLast((each) => each.tagName === 'rect' && holds(each.getBBox(), box));
  return rect ? style(rect).fill : PAPER;
}
const own = (each) => [...each.childNodes].some((child) => child.nodeType === 3 && child.textContent.trim()) && each.checkVisibility();
const words = () => [...document.querySelectorAll('body *:not(script):not(svg *)')].filter(own).map((each) => contrast(style(each).color, ground(each)));
const drawn = () => { const all = shapes(); return all.filter((each) => each.tagName === 'text' && each.textContent.trim()).map((each) => contrast(style(each).fill, below(each, all))); };
const within = ({ x, y, width, height }, { left, top, right, bottom }) => x > left - 1 && x + width < right + 1 && y > top - 1 && y + height < bottom + 1;
const inside = () => [...document.querySelectorAll('#map text, #map path.message, #map .edge')].every((each) => within(each.getBBox(), BOX.edges));
const least = [], small = [], over = [];
keep('opened', [VIEW.at, RUN.frames.findIndex(([, events]) => events.some((event) => event.includes(' sends ')))]);
document.querySelector('details:last-of-type').open = true;
for (let at = 0; at <= LAST; at += STEP_BY) {
  go(at);
  if (at % 3 === 0) followLine(LINES[at % LINES.length]);
  least.push(...words(), ...drawn());
  const moved = new Set(frameAt(at).events.filter(moves).map((event) => Number(event.node)));
  const areas = [...document.querySelectorAll('#map .edge')].map((each) => each.getBBox()).map(({ width }, node) => [moved.has(node), width]);
  small.push(inside() && areas.every(([large, width]) => large === (width === BOX.large)));
  const map = document.querySelector('#map svg').getBoundingClientRect();
  over.push(map.bottom + scrollY - innerHeight);
}
keep('least', Math.min(...least)); keep('small', small.every(Boolean)); keep('over', Math.max(...over)); keep('nodes', NODES);
keep('wide', document.documentElement.scrollWidth - innerWidth);
keep('band', document.querySelector('#map svg').getBoundingClientRect().top - part('events').getBoundingClientRect().bottom + BOX.margin);
</script>
'''
SEE_CYCLES = '''<script>
const told = [];
const text = (each) => each.textContent;
for (let at = 0; at <= LAST; at += 1) {
  go(at);
  told.push([text(part('now')), [...part('events').children].map(text), document.documentElement.scrollWidth <= innerWidth]);
}
document.body.dataset.told = JSON.stringify(told);
</script>
'''


def data_in(page):
    """The data of a page."""
    return json.loads(page.partition('id="data">')[2].partition('</script>')[0])


def states_in(page):
    """The states that the frames of a page lead to, each as a text behind its stamp."""
    data, lines = data_in(page), {}
    for frame in data['frames']:
        keys = saved.in_order(frames.rebuilt(lines, frame), data['contexts'], data['lines'])
        rows = [words for key in keys for words in (lines[key] if key[0] in saved.QUEUES else [lines[key]])]
        yield frame[0], ''.join(f'{" ".join(words)}\n' for words in rows)


def frames_are_states(trial):
    """A page has a frame for the start and for each stamp, and its steps lead to what the program saved"""
    for name, count in COUNTS.items():
        stamps, states = trial.states(name)
        found = list(states_in(trial.page(name)))
        expect(len(found) == count and [stamp for stamp, _ in found] == stamps, f'{name}: {len(found)} frames, and not {count}')
        expect([state for _, state in found] == states, f'{name}: a state differs')


def drawn_runs_have_their_states(trial):
    """Of workloads with few pointers and sets and evictions, and of drawn sources, frames are what the program saves at drawn stamps"""
    draw = random.Random(4)
    made = [trial.program(['gen', '--seed', str(seed), '--width', '3', '--height', '2', '--size', '20'], b'') for seed in range(3)]
    for number, image in enumerate(made + [trial.program(['asm'], drawn_source(draw)) for _ in range(3)]):
        words = ['--seed', str(number), '--pointers', '1', '--sets', '4', '--evict', '8']
        trace = trial.program(['run', *words, '--write', 'trace'], image, RAN)
        trial.keep('drawn.trace', trace)
        status, page, line = trial.view('drawn.trace')
        expect(status == 0, f'run {number}: {line}')
        for stamp, state in draw.sample(list(states_in(page)), 25):
            saved = checkpoint_of(trial.program(['save', '--at', str(stamp)], trace).decode())[1]
            expect(state == ''.join(f'{row}\n' for row in saved), f'run {number}: the state at {stamp} differs')


def drawn_source(draw):
    """A source with drawn arithmetic, branches and accesses, for two nodes of two contexts."""
    rows = ['.mesh 2,1', '.contexts 2', '.lines 3', ' set 0x40000000,%g1', *(f' set {draw.getrandbits(32)},%{name}' for name in REGISTERS[:4])]
    for number in range(120):
        one, two, three = (f'%{draw.choice(REGISTERS)}' for _ in range(3))
        rows.append(draw.choice([f' {draw.choice(ARITHMETIC)} {one},{two},{three}'] * 6 + [
            f' sra {one},{draw.randrange(32)},{two}', f' wr {one},{draw.randrange(4096)},%y', f' rd %y,{one}', f' swap [%g1+{4 * draw.randrange(24)}],{one}',
            f' ldsb [%g1+{draw.randrange(96)}],{one}', f' sth {one},[%g1+{2 * draw.randrange(48)}]',
            f' {draw.choice(BRANCHES)} l{number}\n xor {one},3,{two}\n add {one},1,{two}\nl{number}: nop']))
    return '\n'.join([*rows, ' ta 1', ' ta 0', '']).encode()


def pages_stand_alone(trial):
    """A page names nothing outside of it, and is small"""
    for name in COUNTS:
        page = trial.page(name)
        expect(len(page) < 100000, f'{name}: {len(page)} bytes')
        expect(not re.search(r'(src|href)=|url\((?!#)|@import|fetch\(|https?:(?!//www\.w3\.org/2000/svg)', page), f'{name}: the page names another file')
        expect('<!-- ' not in page.replace('<!-- the', ''), f'{name}: a part of the page is missing')


def parts_are_chosen(trial):
    """A part of a run begins and ends where the words say"""
    status, page, line = trial.view('lock.trace', '--from', '20', '--to', '29')
    expect(status == 0, line)
    expect([frame[0] for frame in data_in(page)['frames']] == list(range(20, 30)), 'the stamps differ')


def traces_come_by_a_pipe(trial):
    """A trace that comes by standard input makes the same page, but for its name"""
    trace = (trial.folder / 'lock.trace').read_bytes()
    ran = subprocess.run([HERE / 'alewife-view', '--program', trial.binary, '-', '--name', 'lock.trace'], input=trace, capture_output=True)
    expect(ran.returncode == 0 and ran.stdout.decode() == trial.page('lock'), ran.stderr.decode().strip())


def refusals_are_named(trial):
    """A trace that is refused, a missing one, a part that is empty and one that is too long are named, and leave no page"""
    trace = (trial.folder / 'two_writers.trace').read_text()
    trial.keep('illegal.trace', trace.replace('3 D 0 0', '4 D 0 0', 1).encode())
    trial.refused('refused: alewife: input refused: entry 2 not legal', 'illegal.trace')
    trial.keep('torn.trace', trace[:-9].encode())
    trial.refused(f'refused: alewife: input refused: text line {trace.count(chr(10)) - 1}: syntax', 'torn.trace')
    trial.refused("can't read none.trace: No such file or directory", 'none.trace')
    trial.keep('print.s', (EXAMPLES / 'print.s').read_bytes())
    trial.refused('this is a source, for asm; a trace is wanted: run --write trace writes one', 'print.s')
    trial.refused('no entry has a stamp from 18 on', 'two_writers.trace', '--from', '18')
    trial.refused("none can't be run: No such file or directory. Name the program, or build it: ./alewife --build", 'spill.trace', '--program', 'none')
    trial.keep_program('old', 'echo alewife: word 0 refused >&2; exit 2')
    trial.refused('./old has no command save (alewife: word 0 refused): name another program', 'spill.trace', '--program', './old')


def logs_are_compared(trial):
    """A program that writes no log, and one whose log leads to other states than it saves, are named"""
    trial.keep_program('mute', f'case "$*" in *log) echo alewife: word 2 refused >&2; exit 2;; esac; exec {trial.binary} "$@"')
    trial.refused('./mute writes no log (alewife: word 2 refused): name another program', 'two_writers.trace', '--program', './mute')
    trial.keep_program('wrong', f'{trial.binary} "$@" | case "$*" in *log) sed "s/ sets %g1 0x40000000/ sets %g1 0x40000004/";; *) cat;; esac')
    status, page, line = trial.view('lock.trace', '--program', './wrong')
    said = 'alewife-view: the state at stamp 10 differs from what the program saves: context 0 .* in place of context 0 '
    expect((status, page) == (1, '') and re.match(said, line), line)


def long_pages_end(trial):
    """A page that has no room for all frames ends before one of them, which is said, and so do its data"""
    loader = SourceFileLoader('alewife_view', str(HERE / 'alewife-view'))
    view = module_from_spec(spec_from_loader('alewife_view', loader))
    loader.exec_module(view)
    whole = len(trial.page('lock').encode())
    view.MOST_BYTES, said = whole - 2000, io.StringIO()
    with contextlib.redirect_stderr(said):
        page = view.page_by(view.read_words([str(trial.folder / 'lock.trace'), '--program', trial.binary]))
    last = data_in(page)['frames'][-1][0]
    expect(60 < last < 80 and view.MOST_BYTES - 3000 < len(page.encode()) <= view.MOST_BYTES, f'{len(page.encode())} bytes of {whole}, up to stamp {last}')
    expect(f'the page ends before stamp {last + 1}, since it has at most' in said.getvalue(), said.getvalue())


def sources_are_shown(trial):
    """With a listing and a source a page has their lines, with a linked program those of C and the names of variables; another program's are refused"""
    lock = EXAMPLES / 'lock.s'
    trial.keep('lock.listing', trial.program(['asm', '--write', 'listing'], lock.read_bytes()))
    status, page, line = trial.view('lock.trace', '--listing', 'lock.listing', '--source', str(lock))
    expect(status == 0 and data_in(page)['statements']['x14'] == ['take: ldstub [%g1],%g4', 'lock.s:6'], line)
    trial.refused("lock.listing isn't the listing of this trace's code", 'spill.trace', '--listing', 'lock.listing', '--source', str(lock))
    try:
        elf = trial.folder / 'flags.elf'
        image = cross.build([EXAMPLES / 'c' / 'wrong' / 'peterson.c'], cross.Sizes(2, 1, 1, 384), cross.Options(keep=elf))
    except cross.MissingTool as missing:
        raise LeftOut(missing) from missing
    trial.keep('flags.trace', trial.program(['run', '--seed', '6', '--write', 'trace'], image, RAN))
    status, page, line = trial.view('flags.trace', '--elf', 'flags.elf')
    expect(status == 0, line)
    data = data_in(page)
    expect({'flags', 'flags+16'} <= set(data['names'].values()), f"names {data['names']}")
    expect(any(re.search(r'in peterson\.c:\d+ \(enter\)', place) for _, place in data['statements'].values()), 'no line of enter')


def events_are_told(trial):
    """Each event of a page is its line of the log, misses and INV have the reasons of alewife-log, and the counts are the report's"""
    trace = (trial.folder / 'lock.trace').read_bytes()
    rows = trial.program(['replay', '--write', 'log'], trace, RAN).decode().splitlines()
    ran = subprocess.run([HERE / 'alewife-log', '--program', trial.binary, 'lock.trace'], cwd=trial.folder, capture_output=True, text=True)
    data = data_in(trial.page('lock'))
    found = {(stamp, event.partition('|')[0].split()[2 if event[0] == 'D' else 1]): event for stamp, events, _ in data['frames'] for event in events}
    expect(len(found) == data['entries'] == int(rows[3].split()[1]), f'{len(found)} events')
    for line, told in zip(rows[4:], ran.stdout.splitlines()[:len(found)]):
        stamp, letter, *words = line.split()
        event, _, reason = found[int(stamp), words[1 if letter == 'D' else 0]].partition('|')
        rest = line.split(' sends ', 1)[1:] if letter == 'I' else [' '.join(words)]
        expect(event[0] == letter and all(event.endswith(part) for part in rest), f'{line} is {event}')
        expect(told.split(';')[0].endswith(reason) if not letter == 'I' else reason in told, f'{reason}, and alewife-log has {told}')
        expect(bool(reason) == ('misses' in words or words[2:3] == ['INV'] and letter == 'D'), f'{line} has the reason {reason}')
    whole = {name: sum(counts[place] for counts in data['whole'].values()) for place, name in enumerate(data['counted'])}
    report = summary_of(trial.program(['replay'], trace, RAN).decode())
    expect(all(int(report[name]) == count for name, count in whole.items()), f'counts {whole}')


def prints_are_listed(trial):
    """The printed words of a page are those of the report, with their stamps"""
    image = trial.program(['asm'], (EXAMPLES / 'print.s').read_bytes())
    trial.keep('print.trace', trial.program(['run', '--write', 'trace'], image))
    status, page, line = trial.view('print.trace')
    data = data_in(page)
    report = json.loads(trial.program(['replay', '--write', 'json'], (trial.folder / 'print.trace').read_bytes()))
    found = sorted([context, int(word, 16)] for _, context, word in data['prints'])
    expect(status == 0 and found == sorted(report['prints']), f'{line}, prints {found}')
    at = {stamp: events for stamp, events, _ in data['frames']}
    expect(all(any(f' prints x{int(word, 16):x}' in event for event in at[stamp]) for stamp, _, word in data['prints']), 'a stamp of a print')


# ---- cycles


def timed_entries(trace, moments):
    """Each entry of a trace in its order: its stamp, the node of its event, and the cycles in which its moments have it start and finish."""
    entries, rows = ([row.split() for row in text.decode().partition('\nentries ')[2].split('\n')[1:-2]] for text in (trace, moments))
    expect([words[1:] for words in entries] == [words[2:] for words in rows] != [], 'the program writes moments of other events')
    return [(int(stamp), other[0] if letter == 'D' else node, int(start), int(finish))
            for (stamp, letter, node, *other), (start, finish, *_) in zip(entries, rows)]


def keep_timed(trial):
    """Keeps a run by a seed and a timed one, each with its moments: the entries of both by name."""
    image, found = trial.program(['gen', '--seed', '5', '--width', '3', '--height', '2', '--size', '20'], b''), {}
    for name, words in TIMED.items():
        trace = trial.program(['run', *words, '--write', 'trace'], image)
        by = (['run', *words], image) if '--cycles' in words else (['time'], trace)
        moments = trial.program([*by[0], '--write', 'moments'], by[1])
        trial.keep(f'{name}.trace', trace)
        trial.keep(f'{name}.moments', moments)
        found[name] = timed_entries(trace, moments)
    return found


def timed_page(trial, name, *words):
    """The page of a run with its moments."""
    status, page, line = trial.view(f'{name}.trace', '--moments', f'{name}.moments', *words)
    expect(status == 0, f'{name}: {line}')
    return page


def events_have_cycles(trial):
    """With moments each event of a page has the cycles of the file, of a run by a seed and of a timed one, and without them there is nothing of cycles in the page"""
    for name, entries in keep_timed(trial).items():
        page, plain = timed_page(trial, name), trial.page(name)
        frames_of = data_in(page)['frames']
        found = {(stamp, event.split()[2 if event[0] == 'D' else 1]): event.split('|')[2] for stamp, events, _ in frames_of for event in events}
        wanted = {(stamp, node): f'{start} {finish}' for stamp, node, start, finish in entries}
        wrong = [key for key in {*found, *wanted} if found.get(key) != wanted.get(key)]
        expect(len(wanted) == len(entries) and not wrong, f'{name}: {len(wrong)} events, as {wrong[:3]}')
        expect(data_in(page)['cycles'] == str(max(finish for *_, finish in entries)), f'{name}: {data_in(page)["cycles"]} cycles in all')
        part = data_in(timed_page(trial, name, '--from', '20', '--to', '29'))['frames']
        expect([frame[:2] for frame in part] == [frame[:2] for frame in frames_of if 20 <= frame[0] <= 29], f'{name}: a part of the run')
        rest = page.replace((HERE / 'moments.js').read_text() + '\n', '', 1).replace(f'"cycles":"{data_in(page)["cycles"]}",\n', '', 1)
        expect(page != plain == re.sub(r'\|?\|\d+ \d+(?=")', '', rest), f'{name}: the page without moments is another one')
        expect('cycles' not in plain.lower(), f'{name}: cycles in the page without moments')


def moments_are_refused(trial):
    """Moments of another run, moments that are cut, what is none, and moments of a picture are refused, and leave no page"""
    keep_timed(trial)
    head, middle, rows = (trial.folder / 'timed.moments').read_bytes().partition(b'\nentries 1028\n')
    expect(middle, 'the timed run has not 1028 entries')
    first, _, rest = rows.partition(b'\n')
    expect(re.fullmatch(rb'0 1 I \d', first), f'the first moment is {first}')
    trial.keep('node.moments', head + middle + first[:-1] + b'%d\n' % ((int(first[-1:]) + 1) % 6) + rest)
    trial.keep('fewer.moments', head + b'\nentries 1027\n' + first + b'\n' + rest[:rest[:-5].rfind(b'\n')] + b'\nend\n')
    trial.keep('more.moments', head + b'\nentries 1029\n' + rows[:-4] + b'9000 9001 I 0\nend\n')
    trial.keep('lost.moments', head + middle + rest)
    trial.keep('cut.moments', head + middle + first + b'\n' + rest[:len(rest) // 2])
    trial.keep('torn.moments', head + middle + first + b' 1\n' + rest)
    others = [('timed', name) for name in ('seeded', 'node', 'lost', 'fewer', 'more')]
    for trace, moments in (*others, ('two_writers', 'timed'), ('spill', 'timed')):
        trial.refused('the moments are those of another run', f'{trace}.trace', '--moments', f'{moments}.moments')
    for moments in ('cut', 'torn'):
        trial.refused('the moments are cut, or one has no form', 'timed.trace', '--moments', f'{moments}.moments')
    status, page, line = trial.view('timed.trace', '--moments', 'timed.trace')
    expect((status, page) == (1, '') and line.startswith('alewife-view: these are no moments: '), line)
    trial.refused("can't read none.moments: No such file or directory", 'timed.trace', '--moments', 'none.moments')
    status, page, line = trial.view('timed.trace', '--moments', 'timed.moments', '--svg', '31')
    expect((status, page, line) == (2, '', 'alewife-view: error: --moments are for a page: a picture by --svg has no cycles'), line)


def browsers_show_cycles(trial):
    """In a browser the cycles of each event stand before it, and behind the stamp those that its events cover, in windows of 390 and 1280 pixels"""
    browser, most = browser_here(), 40
    entries = keep_timed(trial)['timed']
    page = timed_page(trial, 'timed', '--to', str(most))
    count, whole = len(data_in(page)['frames']), data_in(page)['last']
    for width in (390, 1280):
        shown, console = browse(browser, trial.folder, page.replace('</body>', SEE_CYCLES + '</body>'), width)
        told = marks_in(shown).get('told', [])
        expect(not console and len(told) == count and all(fits for *_, fits in told), f'{width}: {console[:1]}, {len(told)} frames, {[fits for *_, fits in told]}')
        for number, ((stamp, *_), (now, events, _)) in enumerate(zip(data_in(page)['frames'], told), 1):
            here = {node: (start, finish) for at, node, start, finish in entries if at == stamp}
            found = {match[3]: (int(match[1]), int(match[2])) for match in (re.match(r'(\d+) to (\d+), node (\d+): ', event) for event in events) if match}
            cover = f', cycles {min(here.values())[0]} to {max(finish for _, finish in here.values())} of {max(finish for *_, finish in entries)}' if here else ''
            expect(found == here and len(events) == max(1, len(here)), f'{width}: stamp {stamp}: {events}')
            expect(now == f'Stamp {stamp} of {whole} (frame {number} of {count}){cover}', f'{width}: {now}')


def line_of(drawn):
    """The line that a picture follows."""
    return int(re.search('<desc>.* line ([0-9]+)</desc>', drawn)[1])


def colours_are_readable(trial):
    """Letters in the colours of kinds and on those of copies and states have the contrast that WCAG wants, and in grey copies and the strokes of kinds differ"""
    expect(colours.contrast('#ffffff', '#000000') == 21 and round(colours.contrast('#ffffff', '#767676'), 2) == 4.54, 'the contrast of black and of grey')
    for name, colour in {**colours.KINDS, 'other': colours.OTHER}.items():
        expect(colours.contrast(colour, colours.PAPER) >= colours.LEAST, f'{name} on paper')
    for name, colour in {**colours.COPIES, **colours.STATES}.items():
        expect(colours.contrast(colour, colours.INK) >= colours.LEAST, f'ink on {name}')
    expect(colours.contrast(*colours.COPIES.values()) > 1.4, 'copies in grey')
    strokes = {(colours.DASHES[kind], kind in colours.HEAVY) for kind in colours.KINDS}
    expect(len(strokes) == len(colours.KINDS), f'kinds in grey: {strokes}')


def pictures_show_frames(trial):
    """A picture of a frame has each node, each message on its way, and the load of each wire, of the line that is followed or of most messages"""
    for name, stamp, words in (('spill', 12, ()), ('lock', 31, ('--line', '0')), ('two_writers', 9, ())):
        status, drawn, line = trial.view(f'{name}.trace', '--svg', str(stamp), *words)
        expect(status == 0, f'{name}: {line}')
        texts = [each.firstChild.data for each in minidom.parseString(drawn).getElementsByTagName('text')]
        stamps, states = trial.states(name)
        image = image_of(run_of((trial.folder / f'{name}.trace').read_text().splitlines()[1:-1]).image)
        nodes, messages = picture.read_state(saved.State(image, states[stamps.index(stamp)].splitlines()), 0)
        expect([text for text in texts if text.startswith('node ')] == [f'node {at}' for at in range(len(nodes))], f'{name}: the nodes')
        expect(sum(int(text.split()[0]) for text in texts if re.match('[0-9]+ [A-Z]', text)) == len(messages), f'{name}: the messages')
        expect(drawn.count('z" fill=') == len(messages) > 0, f'{name}: the heads of the arrows')
        inks = {match[1] for match in re.finditer('<path [^>]*stroke="(#[0-9a-f]{6})"', drawn)}
        expect(inks == {colours.KINDS[each.kind] if each.line == line_of(drawn) else colours.OTHER for each in messages}, f'{name}: colours {inks}')
        loads = [load for _, _, load in data_in(trial.page(name))['loads'] or ()]
        told = [int(text) for text in texts if text.isdecimal()]
        expect(sorted(filter(None, told)) == sorted(loads), f'{name}: the loads')
    log = trial.program(['replay', '--write', 'log'], (trial.folder / 'lock.trace').read_bytes(), RAN).decode()
    for words, form in (('first INV', ' sends INV 0 '), ('last INV', ' sends INV 0 '), ('first miss', ' misses 0 '), ('last print', ' prints ')):
        found = [line.split()[0] for line in log.splitlines() if form in line]
        status, drawn, said = trial.view('lock.trace', '--svg', words, '--line', '0')
        wanted = found and found[0 if words.startswith('first') else -1]
        expect(re.findall(' stamp ([0-9]+), line 0</desc>', drawn) == ([wanted] if found else []), f'{words}: {said}, and the log has {wanted}')
    trial.refused('there is no print in this run', 'lock.trace', '--svg', 'last print', '--line', '0')
    trial.refused('no entry has a stamp from 900 to 900', 'lock.trace', '--svg', '900')
    trial.refused('there is no line 4: the last one is 3', 'lock.trace', '--svg', '31', '--line', '4')


def shown_picture_is_drawn(trial):
    """The README's picture is drawn of the run that it tells of"""
    try:
        shown, image = SHOWN.read_text(), cross.build([EXAMPLES / 'c' / 'total.c'], cross.Sizes(4, 4, 1, 32))
    except cross.MissingTool as missing:
        raise LeftOut(missing) from missing
    except cross.BuildError as error:
        raise Wrong(error) from error
    digest, stamp, line = re.search('<desc>image (.*), stamp (.*), line (.*)</desc>', shown).groups()
    if digest_of(image) != digest:
        raise LeftOut('this compiler makes another image')
    trial.keep('total.trace', trial.program(['run', '--seed', '1', '--write', 'trace'], image))
    status, drawn, said = trial.view('total.trace', '--svg', stamp, '--line', line)
    expect(status == 0 and drawn == shown, f'{SHOWN.name} differs. {said}')


def browse(browser, folder, page, width, height=900, at='#stamp=3'):
    """What a browser makes of a page in a window of some size, and what it says in its console."""
    path = folder / 'visit.html'
    path.write_text(page)
    words = [*QUIET, f'--window-size={width},{height}', f'--user-data-dir={folder}/browser', '--dump-dom', f'file://{path}{at}']
    try:
        ran = subprocess.run([browser, *words], capture_output=True, text=True, timeout=60)
    except subprocess.TimeoutExpired as fault:
        raise Wrong('the browser gave no answer in a minute') from fault
    if ran.returncode and not ran.stdout:
        raise LeftOut(f'{browser} shows no page')
    return ran.stdout, [line for line in ran.stderr.split('\n') if 'CONSOLE' in line]


def browser_here():
    """A browser that is here."""
    browser = next(filter(None, map(shutil.which, BROWSERS)), None)
    if not browser:
        raise LeftOut('there is no Chromium')
    return browser


def marks_in(shown):
    """What a visit to a page has kept of it."""
    marks = re.findall(r' data-(\w+)="([^"]*)"', shown.partition('<body')[2].partition('>')[0])
    return {each: json.loads(html.unescape(text)) for each, text in marks if each != 'shown'}


def pages_are_readable(trial):
    """Pages of 4, 16 and 64 nodes open at the first message, fit windows of 390 to 1920 pixels, and have large boxes for what moved and letters that WCAG reads"""
    browser = browser_here()
    for side, most in ((2, 40), (4, 90), (8, 30)):
        image = trial.program(['gen', '--seed', '7', '--width', str(side), '--height', str(side), '--size', '12'], b'')
        trial.keep('mesh.trace', trial.program(['run', '--pointers', '1', '--write', 'trace'], image))
        status, page, line = trial.view('mesh.trace', '--to', str(most))
        expect(status == 0, line)
        page = page.replace('</body>', LOOK.replace('STEP_BY', str(most // 10)) + '</body>')
        for width, height in ((390, 844), (1280, 900), (1920, 1080)):
            shown, console = browse(browser, trial.folder, page, width, height, '')
            said = marks_in(shown)
            expect(not console and len(said) == 7, f'{side * side} nodes, {width}: {console[:1]}, {said}')
            first, found = said.pop('opened')
            reads = said['least'] >= colours.LEAST and said['small'] and said['wide'] <= 0
            expect(first == found and reads, f'{side * side} nodes, {width}: {said}, opened at {first}')
            expect(said['over'] <= 0 or width == 390, f'{side * side} nodes, {width}: the map is {said["over"]} pixels too high')
            expect(said['band'] < 40, f'{side * side} nodes, {width}: {said["band"]} pixels are empty above the map')


def browsers_show_it(trial):
    """In a browser each frame is the saved state and fits windows of 390 to 1920 pixels, keys step, a line is followed, and loads come to what route says"""
    browser = browser_here()
    for name, width in (('spill', 390), ('two_writers', 800), ('lock', 1280), ('lock', 1920)):
        page = trial.page(name)
        shown, console = browse(browser, trial.folder, page.replace('</body>', VISIT + '</body>'), width)
        expect(not console, f'{name}: {console[:1]}')
        expect('data-shown="yes"' in shown and '<p id="fault" role="alert" hidden="">' in shown, f'{name}: the page failed')
        kept = [html.unescape(text) for text in re.findall(r'<pre class="kept">(.*?)</pre>', shown, re.S)]
        expect(kept == trial.states(name)[1], f'{name}: a frame differs from what was saved')
        said = marks_in(shown)
        loads = said.pop('loads')
        expect(said == {'counts': True, 'stepped': 11, 'line': 0, 'changed': True, 'ended': True, 'focus': '0', 'named': True, 'back': True, 'fits': True,
                        'busier': True, 'quieter': True, 'pointed': True}, f'{name}: {said}')
        told = data_in(page)['loads']
        expect(told is None if name == 'spill' else loads == told, f'{name}: loads {loads}, and route says {told}')


TRIALS = (frames_are_states, drawn_runs_have_their_states, pages_stand_alone, parts_are_chosen, traces_come_by_a_pipe, refusals_are_named,
          logs_are_compared, long_pages_end, sources_are_shown, events_are_told, prints_are_listed, colours_are_readable, pictures_show_frames, shown_picture_is_drawn,
          browsers_show_it, pages_are_readable, events_have_cycles, moments_are_refused, browsers_show_cycles)
