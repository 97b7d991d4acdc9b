"""What examples/litmus/check tries of tests in files: each function is told the program, and says what is wrong."""
import random
import subprocess
import tempfile
from pathlib import Path

import herd
import orders
from trials import expect

HERE = Path(__file__).resolve().parent
CATALOGUE = sorted((HERE / 'catalogue').glob('*.litmus'))
DRAWN = 40
SB = """Test SB Allowed
States 3
0:r0=0; 1:r0=1;
0:r0=1; 1:r0=0;
0:r0=1; 1:r0=1;
No
Witnesses
Positive: 0 Negative: 3
Condition exists (0:r0=0 /\\ 1:r0=0)
Observation SB Never 0 3
"""
FORMS = """C forms
"a name may have a line on it"
{ [x] = -3; int y; z = 7; 1:r9 = 5; }
P0 (int* x, volatile int* y) { *x = 1 + 1; smp_wmb(); WRITE_ONCE(*y, 1); /* a fence is nothing */ }
P1 (int* x, volatile int* y, atomic_int* z) {
  int r0; int r1 = 0;
  r0 = READ_ONCE(*y); // the flag
  if (r0 == 1) { r1 = *x; r1 = r1 + (r0 ^ r0); } else { r1 = xchg(x, r9) - 0; atomic_store(z, r1); }
  atomic_exchange(z, 8);
}
locations [z;]
"""


def run(binary, *words, ends_with=0):
    """What the script writes, or where it has to end with 2 its line on standard error."""
    ran = subprocess.run([HERE / 'run', '--program', str(binary), *map(str, words)], capture_output=True, text=True)
    expect(ran.returncode == ends_with, f'{words}: status {ran.returncode}, {ran.stderr.strip()}')
    return ran.stderr.strip() if ends_with == 2 else ran.stdout


def states_told(text):
    """The states of a text as it is told of one test."""
    head, *lines = text.splitlines()[1:]
    return lines[:int(head.split()[1])]


def states_of(test):
    """The final states by the interpreter, told."""
    names = [f'[{name}]' if thread is None else f'{thread}:{name}' for thread, name in test.told]
    signed = [[value - (1 << 32) if value >> 31 else value for value in end] for end in orders.ends_of(test)]
    return sorted(' '.join(f'{name}={value};' for name, value in zip(names, end)) for end in signed)


def catalogue_holds(binary):
    """Each test of the catalogue has the states that a little interpreter of C finds, and never what a machine with one memory never gives"""
    expect(len(CATALOGUE) > 30, f'{len(CATALOGUE)} tests')
    for path in CATALOGUE:
        test, text = herd.read_test(path.read_text()), run(binary, path)
        expect(test.name == path.stem, f'{path.name} is called {test.name}')
        expect(sorted(states_told(text)) == states_of(test), f'{path.name}: {text}')
        expect(text.splitlines()[-2] == f'Observation {test.name} Never 0 {len(states_told(text))}', f'{path.name}: {text}')


def answers_are_those_of_herd(binary):
    """What is said of a test has the form of herd7's answer, and with counts that of litmus7's"""
    path = HERE / 'catalogue' / 'SB.litmus'
    expect(run(binary, path) == SB + '\n', run(binary, path))
    counted = run(binary, path, '--counts', '30').splitlines()
    expect(counted[1] == 'Histogram (3 states)' and sum(int(line.split(':>')[0]) for line in counted[2:5]) == 30, counted)


def conditions_are_judged(binary):
    """Forms of C and of conditions are read; a forall or ~exists that doesn't hold ends with 1, an exists only asks"""
    cases = (('exists (1:r0=1 /\\ 1:r1=2)', 'Ok', 'Sometimes 1 2', 0), ('~exists (1:r0=1 /\\ 1:r1=-3)', 'Ok', 'Never 0 3', 0),
             ('~exists (1:r0=0)', 'No', 'Sometimes 1 1', 1), ('forall (1:r0=0 \\/ 1:r0=1 /\\ 1:r1=2)', 'Ok', 'Always 3 0', 0),
             ('forall ((1:r0=0 \\/ 1:r0=1) /\\ not ([z]=8))', 'No', 'Never 0 2', 1), ('exists (true /\\ ~(1:r1=5))', 'Ok', 'Always 2 0', 0))
    with tempfile.TemporaryDirectory() as folder:
        path = Path(folder) / 'forms.litmus'
        for condition, verdict, observed, status in cases:
            path.write_text(f'{FORMS}{condition}\n')
            text = run(binary, path, ends_with=status)
            lines, test = text.splitlines(), herd.read_test(path.read_text())
            expect(lines[-2] == f'Observation forms {observed}' and lines[-6] == verdict, f'{condition}: {text}')
            expect(sorted(states_told(text)) == states_of(test), text)


def files_are_refused(binary):
    """What isn't a test in C, and what the machine or the grammar doesn't have, is refused with its line"""
    sb = (HERE / 'catalogue' / 'SB.litmus').read_text()
    with tempfile.TemporaryDirectory() as folder:
        path = Path(folder) / 'wrong.litmus'
        for old, new, line in (
                ('C SB', 'X86 SB', 'line 1: a test in C begins with C and its name'),
                ('atomic_load_explicit(y,', 'atomic_fetch_add(y,',
                 'atomic_fetch_add is none of the calls that are known: loads, stores, exchanges and fences'),
                ('int r0 =', 'while (1)', 'line 6: = or ; is wanted, and not ('),
                ('(y, memory', '(z, memory', 'z is no word that the thread is told of'),
                ('1:r0=0', '2:r0=0', '2:r0 is no place of the test'),
                ('1:r0=0', '1:r1=0', 'thread 1 has no register r1'),
                ('exists (', 'filter (', 'line 14: exists or forall is wanted, and not filter'),
                ('1:r0=0)', '1:r0=0', 'line 15: ) is wanted, and not the end')):
            path.write_text(sb.replace(old, new, 1))
            said = run(binary, path, ends_with=2)
            expect(said == f'litmus: {path}: {line}', said)
        said = run(binary, Path(folder) / 'none.litmus', ends_with=2)
        expect(said.endswith('none.litmus: No such file or directory'), said)


def drawn_expression(draw, names, depth=0):
    """An expression that is drawn."""
    kind = draw.choice(('number', 'name', 'load', 'exchange', 'both', 'both') if depth < 2 else ('number', 'name'))
    if kind == 'both':
        left, right = (drawn_expression(draw, names, depth + 1) for _ in range(2))
        return f'({left} {draw.choice(herd.OPERATORS)} {right})'
    word = draw.choice('xy')
    made = {'number': str(draw.randrange(3)), 'name': draw.choice(names), 'load': f'atomic_load({word})'}
    return made.get(kind, f'atomic_exchange({word}, {draw.randrange(4)})')


def drawn_test(number):
    """A test whose threads are drawn from a number."""
    draw, text = random.Random(f'litmus {number}'), f'C drawn{number}\n{{ x = {number % 3}; 0:r0 = 2; }}\n'
    for thread in range(2 + number % 4 // 3):
        rows = ['int r0; int r1;' if thread else 'int r1;']
        for _ in range(2):
            made = drawn_expression(draw, ('r0', 'r1'))
            store, let = f'atomic_store({draw.choice("xy")}, {made});', f'{draw.choice(("r0", "r1"))} = {made};'
            rows.append(draw.choice((store, let, f'if ({drawn_expression(draw, ("r0", "r1"), 1)}) {{ {let} }} else {store}')))
        text += f'P{thread} (atomic_int* x, atomic_int* y) {{ {" ".join(rows)} }}\n'
    return text + 'locations [x; y; 0:r0; 0:r1; 1:r0; 1:r1;]\nexists (true)\n'


def drawn_tests_agree(binary):
    """Of drawn tests with branches, exchanges and sums the search finds the states that the interpreter finds"""
    with tempfile.TemporaryDirectory() as folder:
        for number in range(DRAWN):
            path = Path(folder) / f'drawn{number}.litmus'
            path.write_text(drawn_test(number))
        texts = run(binary, *(Path(folder) / f'drawn{number}.litmus' for number in range(DRAWN))).strip('\n').split('\n\n')
    expect(len(texts) == DRAWN and sum(len(states_told(text)) > 1 for text in texts) > DRAWN // 2, f'{len(texts)} answers')
    for number, text in enumerate(texts):
        expect(sorted(states_told(text)) == states_of(herd.read_test(drawn_test(number))), f'{drawn_test(number)}{text}')


TRIALS = (catalogue_holds, answers_are_those_of_herd, conditions_are_judged, files_are_refused, drawn_tests_agree)
