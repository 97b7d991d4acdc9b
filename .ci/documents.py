#!/usr/bin/env python3
"""Checks that the documents say what stands. Prints a line for each finding, and ends with 1 where there is one.

What is tested:
- README.md: at most 150 lines, each under 120 characters, and nine links to promises of docs/PROMISES.md.
- each crate's README: its headings; its table of promises, whose rows have functions of the crate with their clauses, and edits;
  that each edit of the crate stands in a row; and that 'Left open' speaks of want of memory where a public function may
  answer nothing but that. A row may begin with a name, '**name**: ', and a named promise has an edit in one of its rows.
- README.md, docs/, bench/README.md and each crate's README: each name in `code` that looks like one of the repository's is
  declared in it, and each path is there, as is what links lead to, with the place in its page. CHANGES.md may name what is gone.
- the tables of these pages: a name behind a folder, as in `alw_cli/src`: `top`, is a file of it; of a table that says places, what a row names
  stands in one of the row's files; and what docs/DEFINITIONS.md names stands in the file that it says, as does each line of a definition there.
- what tools/words.py writes of the command words is current: README.md's table, the launcher's help, the manual's options, the completions. README.md
  says each form, and README.md and the manual say the times that the launcher says.
- each edit still fits: its old text stands once in its file.
- each block of README.md, docs/TUTORIAL.md, docs/EXAMPLES.md, docs/DEBUGGING.md, docs/LANGUAGE.md and docs/FORMATS.md that shows commands, C or assembly is a file of
  examples/, of which the checks there run each, and each file *.shell of examples/ stands in one of the pages.
- docs/LANGUAGE.md has each mnemonic and directive in its tables, and no other. Each example of a statement is a line of a case of the group sources
  that is assembled, as is a statement of each name; and each source with a fault is a case with that fault, of which each has one.
- docs/FORMATS.md: its rules have the words that the definitions of texts spell, and no other, and each a name of its own. What each case writes is of its rule, and what is refused
  for its form isn't. Its tables have each event, message, state, status, trap type, key, field and fault of the definitions, and no other; each line of a
  refusal is that of a case. Each text that tools/words.py names has a rule, which begins as it says, and the table of formats says what reads it.
- the table of docs/ARCHITECTURE.md has each crate of crates.txt with the first sentence of its README, as .ci/floors.py writes it. tools/took.csv has no other crates
  than those that the program is made from.
- a crate of crates.txt stands on crates of its own floor and of those that the floor's line names; what it lists else is of the toolchain.
- cases/README.md names each group of cases, but for those that have the name of a command or of a text. Each command is called by a case.
- docs/REFUSALS.md: each row has calls of its crate, a clause of one of them or a word of it, and tests or cases, these as `group: name`; and each call of these crates that
  answers a Result or an Option has a row. A crate that makes what a command answers is one of these, and of the floor of texts each that answers more than want of memory.

A row's second cell is read like this: parts are parted by ';', and what stands in `code` in a part is a function, method or
type of the crate, or a clause of one named before it in that part. In brackets stand definitions, or an edit's crate.
"""
import csv
import json
import re
import sys
from dataclasses import dataclass, field
from functools import lru_cache
from pathlib import Path

sys.path.insert(0, str(Path(__file__).resolve().parent.parent / 'tools'))
sys.dont_write_bytecode = True
import floors
import grammars
import places
import words
from alewife import Findings, ROOT
from places import declared
from pages import SPAN, WORD, is_name, section_of, tables_of, without_fences

LANGUAGE = ROOT / 'docs' / 'LANGUAGE.md'
FORMATS = ROOT / 'docs' / 'FORMATS.md'
COMMANDS = words.read_table()
SPELLING = {LANGUAGE, FORMATS}
HEADINGS = ['What it does', 'What a contract sees', 'What is proved', 'What is only tested', 'Left open', 'A caller']
CRATE_TABLE = ['promise', 'function, clause', 'edit that is refused']
REFUSAL_TABLE = ['call', 'refuses', 'clause', 'what stands', 'succeeds in']

# Words in `code` that the repository doesn't declare: of Rust and its library, of the toolchain, of the shell, and of GDB.
OUTSIDE = set('''
    Model Option Some None Result Ok Err Vec String extend_from_slice from_be_bytes strip_prefix split_at where pub mod
    serde serde_json compact_text Appends Consumes IsAtEnd Keeps IsPermutation FinMap take filter eqb-true arith nat_tests yes no
    auto using unfolding unfoldable abbrev refl sym subst ap rw simp cc elim search omega grind rt plant renice asm gen dis schedule
    watch reverse-continue rc why nat_lt declared result requires ensures
'''.split())


# ---- the sources


@dataclass
class Clause:
    """A clause of a function: what it is, `ensures` or `requires`, its name, or '' where it has none, and its text."""
    kind: str
    name: str
    text: str


@dataclass
class Function:
    """A function or method of a crate. `path` is Type::name of a method, and the name of any other."""
    name: str
    path: str
    is_public: bool
    signature: str
    file: Path
    clauses: list = field(default_factory=list)


FUNCTION = re.compile(r'^ *(pub )?(?:pub\(crate\) )?(?:const |unsafe )*fn (\w+)')
BLOCK = re.compile(r'^(pub )?(?:pub\(crate\) )?(?:(trait)|impl(?:<[^{]*?>)?(?: \w+(?:<.*?>)? (for))?) (\w+)')
CLAUSE = re.compile(r'^\s*(ensures|requires)\b *(\w*) *\{', re.M)


def braced(text, start):
    """What stands between the brace at `start` and the one that ends it."""
    depth = 0
    for at in range(start, len(text)):
        depth += {'{': 1, '}': -1}.get(text[at], 0)
        if depth == 0:
            return text[start + 1:at]
    return text[start + 1:]


def heads_of(text):
    """Where the functions of a .rt file begin, as rt fmt lays it out: the place, the type whose method it is, its name, whether others see it."""
    at, owner, shows = 0, '', False
    for line in text.splitlines(keepends=True):
        block, function = BLOCK.match(line), FUNCTION.match(line)
        if block:
            owner, shows = block[4] + '::', bool(block[3] or block[1] and block[2])
        elif line[0] not in ' \n}':
            owner, shows = '', False
        if function:
            yield at, owner, function[2], bool(function[1]) or shows
        at += len(line)


def functions_of(file):
    """The functions of a .rt file, each with its clauses."""
    text = re.sub(r'//.*', '', file.read_text())
    heads, functions = list(heads_of(text)), []
    for (start, owner, name, is_public), end in zip(heads, [head[0] for head in heads[1:]] + [len(text)]):
        own = text[start:end]
        clauses = [Clause(c[1], c[2], braced(own, c.end() - 1)) for c in CLAUSE.finditer(own)]
        signature = CLAUSE.split(own)[0] if clauses else own.partition('{')[0]
        functions.append(Function(name, owner + name, is_public, signature, file, clauses))
    return functions


RUST_NAME = re.compile(r'\b(?:fn|struct|enum|trait|const|static|type|mod) (\w+)')
TYPE = re.compile(r'^pub (?:struct|enum|trait) (\w+)[^;{(]*(?:\{(.*?)^\}|\((.*?)\);|;)', re.M | re.S)
MEMBER = re.compile(r'^ +(?:pub |pub\(crate\) )?(?:ghost )?(\w+)(?=[:,({ ])', re.M)
EXPORT = re.compile(r'^(?:pub )?use [\w:]*?(\{[^}]*\}|\w+);', re.M)


@dataclass
class Crate:
    """A crate: its functions, its public types with their parts, what its root exports, and all names that it declares."""
    name: str
    folder: Path
    functions: list = field(default_factory=list)
    types: dict = field(default_factory=dict)
    exports: set = field(default_factory=set)
    edits: set = field(default_factory=set)
    names: set = field(default_factory=set)

    def readme(self):
        return self.folder / 'README.md'

    def calls(self):
        """The functions and methods that other crates can call, without conversions and tests."""
        return [f for f in self.functions if f.is_public and f.path.split('::')[0] in self.exports and f.name != 'from']


def read_crate(folder):
    crate = Crate(folder.name, folder)
    for file in sorted(folder.glob('src/**/*.rt')):
        bare = re.sub(r'//.*', '', file.read_text())
        crate.functions += functions_of(file)
        crate.types.update({match[1]: match[2] or match[3] or '' for match in TYPE.finditer(bare)})
        crate.names |= set(RUST_NAME.findall(bare)) | set(MEMBER.findall(bare)) | {file.stem}
        if file.name in ('lib.rt', 'main.rt'):
            crate.exports |= {name for item in EXPORT.findall(bare) for name in re.findall(r'\w+', item)}
    for file in [*folder.glob('specs/**/*.antt'), *folder.glob('proofs/**/*.antt')]:
        crate.names |= declared(file) | {file.stem}
    crate.edits = {file.stem for file in folder.glob('must-fail/*.edit')}
    crate.names |= {clause.name for f in crate.functions for clause in f.clauses} | crate.edits | {crate.name}
    return crate


def read_crates():
    return {folder.name: read_crate(folder) for folder in sorted((ROOT / 'crates').iterdir()) if (folder / 'src').is_dir()}


def with_parts(types, parts):
    """The types that have one of these parts, or one that has, and so on."""
    found, more = set(), set(parts)
    while not more <= found:
        found |= more
        more = {name for name, text in types.items() if found & set(re.findall(r'\w+', text))}
    return found


def memory_calls(crate, repository):
    """The crate's calls whose answer can be want of memory: NoMemory, an enum with such a variant, or what has one of these in it."""
    refusals = {name for each in repository.values() for name, text in each.types.items() if re.search(r'\bNoMemory\b', text)}
    found = with_parts(crate.types, refusals | {'NoMemory'})
    return [f.path for f in crate.calls() if found & set(re.findall(r'\w+', f.signature.rpartition('->')[2]))]


# ---- the documents


def placed(file, line, text):
    """A finding, with its file, and its line where it has one."""
    place = file.relative_to(ROOT)
    return f'{place}:{line}: {text}' if line else f'{place}: {text}'


# ---- the checks


def named(crates, name, before):
    """The functions of a name: the free one, else the method of the type last named, else any method; of a type, its calls."""
    functions = [function for crate in crates for function in crate.functions]
    owner = before[-1].path.rpartition('::')[0] if before else ''
    for path in (name, f'{owner}::{name}'):
        exact = [f for f in functions if f.path == path]
        if exact:
            return exact
    if any(name in crate.types for crate in crates):
        return [f for f in functions if f.path.startswith(name + '::') and f.is_public]
    return [f for f in functions if f.name == name]


def check_contract(findings, file, row, cell, crates):
    """Each function, method, type or clause of a row's second cell stands in one of these crates."""
    names_one = False
    for part in re.sub(r'\(.*?\)', '', cell).split(';'):
        before = []
        for name in SPAN.findall(part):
            here = named(crates, name, before)
            before += here
            if not here and not any((clause.kind, clause.name) == ('ensures', name) for f in before for clause in f.clauses):
                findings.say(file, row.line, f'`{name}` is no function, type or clause here of {", ".join(c.name for c in crates)}')
            names_one = True
    if not names_one:
        findings.say(file, row.line, 'a row without a function')


def check_edits(findings, file, row, cell, crates, repository):
    """The edits of a row, each of one of these crates or of the one named behind it in brackets. Answers them as (crate, edit)."""
    found = set()
    for name, other in re.findall(r'`(\w+)`(?: \((?:in )?`(\w+)`\))?', cell):
        owners = [repository[other]] if other in repository else crates
        holders = [crate.name for crate in owners if name in crate.edits]
        if not holders:
            findings.say(file, row.line, f'there is no edit {name} in {", ".join(c.name for c in owners)}')
        found |= {(holder, name) for holder in holders}
    return found


NAME = re.compile(r'\*\*([^*]+)\*\*: ')


def promise_rows(crate):
    """The rows of a crate's table of promises."""
    text = crate.readme().read_text() if crate.readme().is_file() else ''
    return [row for head, rows in tables_of(text) if head == CRATE_TABLE for row in rows]


def name_of(row):
    """The name of a row's promise, or None."""
    match = NAME.match(row.cells[0])
    return match[1] if match else None


def named_rows(repository):
    """The rows of each named promise, by its name, each with its crate; floor by floor."""
    found = {}
    for name in floors.crates():
        for row in promise_rows(repository[name]) if name in repository else ():
            if name_of(row):
                found.setdefault(name_of(row), []).append((repository[name], row))
    return found


def check_promises(findings, repository):
    """Each named promise has an edit."""
    for name, rows in named_rows(repository).items():
        if not any(row.cells[2] for _, row in rows):
            findings.say(rows[0][0].readme(), rows[0][1].line, f'the promise {name} has no edit')


PROMISE_LINK = re.compile(r'\]\(docs/PROMISES\.md#([^)]+)\)')


def linked_promises():
    """The places of docs/PROMISES.md that README.md links to."""
    return set(PROMISE_LINK.findall((ROOT / 'README.md').read_text()))


def check_readme(findings):
    """README.md is a page that one reads, with nine promises. `check_links` says whether they are there."""
    file = ROOT / 'README.md'
    lines = file.read_text().splitlines()
    if len(lines) > 150:
        findings.say(file, 0, f'has {len(lines)} lines, and at most 150 are wanted')
    for number, line in enumerate(lines, 1):
        if len(line) >= 120:
            findings.say(file, number, f'has {len(line)} characters, and fewer than 120 are wanted')
    if len(linked_promises()) != 9:
        findings.say(file, 0, 'links to other than nine promises of docs/PROMISES.md')


def check_form(findings, file, text, crate):
    """A crate's README: its headings in their order, and under each of them a text."""
    headings = re.findall(r'^## (.*)$', without_fences(text), re.M)
    if headings != HEADINGS:
        findings.say(file, 0, f'has the headings {", ".join(headings)}; the form is {", ".join(HEADINGS)}')
    for heading in HEADINGS:
        if section_of(text, heading) == '':
            findings.say(file, 0, f"'{heading}' is empty")
    if not text.startswith(f'# {crate.name}\n'):
        findings.say(file, 1, f'the first line is not # {crate.name}')


def check_left_open(findings, file, text, crate, repository):
    """Where want of memory alone meets a clause of the crate, 'Left open' says so."""
    calls = memory_calls(crate, repository)
    left = section_of(text, 'Left open') or ''
    if calls and not re.search('want of memory|NoMemory', left):
        findings.say(file, 0, f"'Left open' doesn't say that {', '.join(calls)} may answer want of memory at any time")


def check_crate(findings, crate, repository):
    """A crate's README."""
    file = crate.readme()
    if not file.is_file():
        findings.say(crate.folder, 0, 'has no README.md')
        return
    text = file.read_text()
    check_form(findings, file, text, crate)
    check_left_open(findings, file, text, crate, repository)
    if [head for head, _ in tables_of(text)].count(CRATE_TABLE) != 1:
        findings.say(file, 0, f'has not one table with the head {CRATE_TABLE}')
    named = set()
    for row in promise_rows(crate):
        check_contract(findings, file, row, row.cells[1], [crate])
        named |= check_edits(findings, file, row, row.cells[2], [crate], repository)
    for edit in sorted(crate.edits - {name for owner, name in named if owner == crate.name}):
        findings.say(file, 0, f'the edit {edit} is in no row')


PATH = re.compile(r'^[\w.*-]+(/[\w.*-]*)+$|^[\w-]+\.(?:rt|antt|md|s|sh|py|txt)$')
LINK = re.compile(r'\]\(([^):#\s]*)(?:#([^):\s]+))?\)')


def check_names(findings, file, repository, folder):
    """Each path in `code` is there, and each name that looks like one of the repository's is declared in it. A page of a language has words of it."""
    known = set().union(*(crate.names for crate in repository.values())) | OUTSIDE | (spelled_words() if file in SPELLING else set())
    known |= {item for crate in repository.values() for item in crate.types}
    for number, line in enumerate(without_fences(file.read_text()).splitlines(), 1):
        for span in SPAN.findall(line):
            if PATH.match(span):
                if not is_there(span.strip('/'), folder):
                    findings.say(file, number, f'there is no {span}')
            elif is_name(span):
                for word in WORD.findall(span):
                    if word not in known:
                        findings.say(file, number, f'nothing is named {word} (in `{span}`)')


def check_links(findings, file):
    """What a link or a picture leads to is there, and the place in a page too."""
    for path, place in LINK.findall(without_fences(file.read_text())):
        target = file.parent / path if path else file
        if not target.exists():
            findings.say(file, 0, f'there is no {path}')
        elif place and place not in places_of(target):
            findings.say(file, 0, f'there is no place {place} in {path or file.name}')


def anchor(heading):
    """The place in a page that a heading makes: its words in small letters, joined by '-'."""
    return re.sub(r'[^\w -]', '', heading.lower()).replace(' ', '-')


def places_of(file):
    """The places in a page that links can lead to."""
    text = file.read_text()
    return {anchor(heading) for heading in re.findall(r'^#+ (.*)$', text, re.M)} | set(re.findall(r'<a id="([^"]+)"></a>', text))


def is_there(path, folder):
    """Whether a path is there, from the top, from crates/ or from the crate of a README, else from any crate; .antt may be left out.
    What a build makes, in a folder out, isn't there."""
    crates = ROOT / 'crates'
    own = (folder, folder / 'specs') if folder.parent == crates else tuple(crates.iterdir())
    return any(stands_below(base, path + end) for base in (ROOT, crates, *own) for end in ('', '.antt'))


@lru_cache(maxsize=None)
def stands_below(base, path):
    """Whether a folder has a path, which may have '*' in it, outside of what a build makes."""
    found = base.glob(path) if '*' in path else [base / path] if (base / path).exists() else []
    return any('out' not in file.relative_to(ROOT).parts for file in found)


EDIT = re.compile(r'^(?:file: (.*)|old: (.*)\nnew: ?(.*))$', re.M)


def check_fit(findings, edit, crate):
    """Each old text of an edit stands once in its file, as the pairs before it left that."""
    texts, name = {}, None
    for file, old, new in EDIT.findall(edit.read_text()):
        name = file or name
        path = crate.folder / name
        texts.setdefault(name, path.read_text() if path.is_file() else '')
        count = 1 if file else texts[name].count(old)
        if count != 1:
            findings.say(edit, 0, f'its old text stands {count} times in {name}: {old.strip()}')
        texts[name] = texts[name].replace(old, new) if old else texts[name]


def check_words(findings):
    """What tools/words.py writes is current, README.md's table among it, and README.md has each form."""
    for file, text in words.pages().items():
        if file.read_text() != text:
            findings.say(file, 0, "isn't what the table of command words says today: run tools/words.py")
    spelled = {word for span in SPAN.findall(words.README.read_text()) for word in span.split()}
    for form in sorted({form for command in COMMANDS.values() for option in command.options if option.value() == 'FORM' for form in option.names} - spelled):
        findings.say(words.README, 0, f"doesn't say the form {form}")


TIMES = re.compile(r"^(\w+_takes)='(.*)'$", re.M)


def check_times(findings):
    """The times of a build that the launcher says are those that README.md and the manual say."""
    for name, time in TIMES.findall((ROOT / 'alewife').read_text()):
        for file in (ROOT / 'README.md', ROOT / 'docs' / 'alewife.1'):
            if time not in ' '.join(file.read_text().split()):
                findings.say(file, 0, f"doesn't say {time}, which is the launcher's {name}")


def check_took(findings):
    """tools/took.csv has seconds of crates that the program is made from, and of no other."""
    file = ROOT / 'tools' / 'took.csv'
    with file.open() as rows:
        took = {row['crate'] for row in csv.DictReader(rows)}
    for name in sorted(took - floors.crates_below('alw_cli')):
        findings.say(file, 0, f'{name} has a row, and the program is made from no such crate')


@lru_cache(maxsize=None)
def tests_in(folder):
    """The tests of a crate's folder."""
    return {name for file in folder.glob('src/**/*.rt') for name in re.findall(r'#\[test\]\s+fn (\w+)', file.read_text())}


@lru_cache(maxsize=None)
def cases_of(group):
    """The names of a group of cases."""
    file = ROOT / 'cases' / f'{group}.jsonl'
    return {json.loads(line)['name'] for line in file.read_text().splitlines()} if file.is_file() else set()


def case_rows():
    """All cases, each with its group."""
    for group in sorted((ROOT / 'cases').glob('*.jsonl')):
        yield from ((group.stem, json.loads(line)) for line in group.read_text().splitlines())


def check_cases(findings):
    """cases/README.md has each group of cases in its table, but for those of the name of a command or of a text, and no other; a case calls each command."""
    file = ROOT / 'cases' / 'README.md'
    shown = {name for head, rows in tables_of(file.read_text()) if head[0] == 'group' for row in rows for name in SPAN.findall(row.cells[0])}
    groups = {group.stem for group in file.parent.glob('*.jsonl')}
    for name in sorted((shown - groups) | (groups - shown - {*COMMANDS, *words.KINDS})):
        findings.say(file, 0, f'{name} is a group or stands in its table, and not both')
    for name in sorted(set(COMMANDS) - {called.split()[0] for _, row in case_rows() for called in row['words'].split(' | ') if called}):
        findings.say(file, 0, f'no case calls {name}')


def check_successes(findings, file, row, repository):
    """What a row of docs/REFUSALS.md names as a success: tests, which stand in alw_trials, and cases."""
    named = row.cells[4]
    for test in sorted(set(re.findall(r'`(\w+)`', named)) - tests_in(repository['alw_trials'].folder)):
        findings.say(file, row.line, f'there is no test {test} in alw_trials')
    for group, name in re.findall(r'`(\w+): ([^`]+)`', named):
        if name not in cases_of(group):
            findings.say(file, row.line, f'there is no case {name} in {group}')
    if not SPAN.findall(named):
        findings.say(file, row.line, 'a row without a test or a case')


def check_refusal(findings, file, row, crate, repository):
    """A row of docs/REFUSALS.md: calls of the crate, with a clause of one of them, and what succeeds. Answers the paths of the calls."""
    calls = [f for f in crate.functions if f.is_public and f.path in SPAN.findall(row.cells[0])]
    for path in sorted(set(SPAN.findall(row.cells[0])) - {f.path for f in calls}):
        findings.say(file, row.line, f'`{path}` is no call of {crate.name}')
    ensured = [clause for f in calls for clause in f.clauses if clause.kind == 'ensures']
    words = {clause.name for clause in ensured} | {word for clause in ensured for word in WORD.findall(clause.text)}
    cited = set(SPAN.findall(row.cells[2]))
    if cited and not cited & words:
        findings.say(file, row.line, f'no clause of {row.cells[0]} is named {", ".join(sorted(cited))} or speaks of it')
    check_successes(findings, file, row, repository)
    return {f.path for f in calls}


def refusal_rows(text):
    """The rows of docs/REFUSALS.md, each with the heading above it."""
    headings = [(number, line[3:]) for number, line in enumerate(text.splitlines(), 1) if line.startswith('## ')]
    for row in (row for head, rows in tables_of(text) if head == REFUSAL_TABLE for row in rows):
        yield [heading for number, heading in headings if number < row.line][-1], row


def check_refusals(findings, repository):
    """docs/REFUSALS.md: under a heading with a crate's name a row for each of its calls that answers a Result or an Option."""
    file, named = ROOT / 'docs' / 'REFUSALS.md', {}
    for name, row in refusal_rows(file.read_text()):
        if name in repository and len(row.cells) == len(REFUSAL_TABLE):
            named.setdefault(name, set()).update(check_refusal(findings, file, row, repository[name], repository))
        else:
            findings.say(file, row.line, f'a row of {len(row.cells)} cells under the heading {name}')
    check_all_refuse(findings, file, named, repository)


def refusing(crate):
    """The calls of a crate that answer a Result or an Option."""
    return [f for f in crate.calls() if re.search('->.*(Result|Option)', f.signature, re.S)]


def check_all_refuse(findings, file, named, repository):
    """Each call of these crates that answers a Result or an Option is named. Each crate with a call that makes what a command answers is one of them, and each
    of the floor of texts with a call that answers more than want of memory."""
    for name in sorted({name for name, crate in repository.items() if any('Result<Output,' in f.signature for f in crate.calls())} - set(named)):
        findings.say(file, 0, f'has no row of {name}, which makes what a command answers')
    for name, paths in named.items():
        if missing := {f.path for f in refusing(repository[name])} - paths:
            findings.say(file, 0, f'has no row of {", ".join(sorted(missing))} of {name}')
    for name in (name for floor in floors.read() if floor.name == 'texts' for name in floor.crates if name in repository and name not in named):
        if missing := {f.path for f in refusing(repository[name]) if not re.search(r'->.*Result<.*, NoMemory>', f.signature, re.S)}:
            findings.say(file, 0, f'has no row of {", ".join(sorted(missing))} of {name}, which may answer more than want of memory')


TUTORIAL = ROOT / 'docs' / 'TUTORIAL.md'
WITH_EXAMPLES = ROOT / 'README.md', TUTORIAL, ROOT / 'docs' / 'EXAMPLES.md', ROOT / 'docs' / 'DEBUGGING.md', LANGUAGE, FORMATS
KINDS = {'c': 'c', 'asm': 's'}


def check_examples(findings):
    """Each block of these pages that shows commands is one of the examples, which examples/check runs, and each in C or assembly is a program there."""
    examples = {kind: {example.read_text(): example for example in (ROOT / 'examples').rglob(f'*.{kind}')} for kind in ('shell', 'c', 's')}
    shown = set()
    for file in WITH_EXAMPLES:
        for language, block in re.findall(r'^```(\w*)\n(.*?)^```$', file.read_text(), flags=re.M | re.S):
            kind = KINDS.get(language, 'shell')
            shown.add(block)
            if (language in KINDS or block.startswith('$ ')) and block not in examples[kind]:
                findings.say(file, 0, f"no file *.{kind} of examples/ is the block that begins with '{block.splitlines()[0]}'")
    for text, example in examples['shell'].items():
        if text not in shown:
            findings.say(example, 0, f'stands in none of {", ".join(file.name for file in WITH_EXAMPLES)}')


def cells_below(file, name):
    """The cells of a page's tables that stand below this name, each with its line."""
    for head, rows in tables_of(file.read_text()):
        for place in (k for k, each in enumerate(head) if each == name):
            yield from ((row.line, row.cells[place]) for row in rows if len(row.cells) == len(head))


def check_listed(findings, file, heads, wanted):
    """What stands in code below these heads begins with each wanted word, and with no other."""
    said = {span.split()[0] for name in heads for _, cell in cells_below(file, name) for span in SPAN.findall(cell)}
    for word in sorted(said ^ set(wanted)):
        findings.say(file, 0, f'says {word} below {heads[0]}, which the sources lack' if word in said else f'lacks {word} below {heads[0]}')


FAULT = re.compile(r'^asm_text \(asm\.\w+ line\) = asm_fault_text line \(codes "([^"]+)"\)$', re.M)


def check_faults(findings, sources):
    """Each row of a source with its fault is a case, and each fault has a row."""
    refused = {(row['input'].rstrip('\n'), row.get('error')) for row in sources if isinstance(row['input'], str)}
    cells = zip(cells_below(LANGUAGE, 'source'), cells_below(LANGUAGE, 'fault'))
    said = [(line, '\n'.join(SPAN.findall(source)), fault.strip('`')) for (line, source), (_, fault) in cells]
    for line, source, fault in said:
        if (source, f'alewife: input refused: {fault}') not in refused:
            findings.say(LANGUAGE, line, f'no case of the group sources is this source with the fault {fault}')
    wanted = set(FAULT.findall((ROOT / 'crates' / 'alw_answers' / 'specs' / 'ErrLines.antt').read_text()))
    for fault in sorted(wanted ^ {fault.partition(': ')[2] for _, _, fault in said}):
        findings.say(LANGUAGE, 0, f'the fault {fault} is in its table of sources or one of the program, and not both')


def check_language(findings):
    """docs/LANGUAGE.md: all names of statements, examples that are assembled, and sources that are refused."""
    mnemonics, directives = words.read_names()
    names = [*mnemonics, *(f'.{name}' for name in directives)]
    check_listed(findings, LANGUAGE, ('mnemonic', 'branch', 'trap'), mnemonics)
    check_listed(findings, LANGUAGE, ('directive',), names[len(mnemonics):])
    sources = [json.loads(line) for line in (ROOT / 'cases' / 'sources.jsonl').read_text().splitlines()]
    lines = {line for row in sources if row['status'] == 0 for line in row['input'].splitlines()}
    for number, cell in cells_below(LANGUAGE, 'example'):
        if cell.strip('`') not in lines:
            findings.say(LANGUAGE, number, f'no case of the group sources has the line {cell}')
    for name in sorted(set(names) - {re.split('[ ,]', line)[0] for line in lines}):
        findings.say(LANGUAGE, 0, f'no case of the group sources has a statement {name}')
    check_faults(findings, sources)


# What the tables of docs/FORMATS.md list: below which head what these files of crates/ have, as an expression finds it.
LISTED = {
    'kind': (['alw_report/specs/*.antt'], r'^kind_text .*codes "(\w+)"'),
    'state': (['alw_report/specs/*.antt'], r'^state_text .*codes "(\w+)"'),
    'meta state': (['alw_report/specs/*.antt'], r'^meta_text .*codes "([\w-]+)"'),
    'key': (['alw_json/specs/*.antt', 'alw_report/specs/*.antt', 'alw_profile/specs/*.antt'], r'\(codes "(\w+)",'),
    'letter': (['alw_trace/specs/*.antt'], r'^event_text .*? = codes " (\w) "'),
    'does': (['alw_report/specs/*.antt'], r'^status_text .*codes "(\w+)'),
    'tt': (['sparc_table/specs/*.antt'], r'\b(?:Err|Trap) \(?(0x[0-9a-fA-F]{2})\b'),
    'status': (['alw_answers/specs/*.antt', 'alw_cli/src/main.rt'], r'^(?:status_of .* =|const NO_WORDS: u8 =) (\d+)'),
    'offset': (['alw_image/specs/Faults.antt'], r'\((?:Magic |Version )?(\d+)(?:, is_within|\))'),
    'fault of an image': (['alw_answers/specs/*.antt'], r'^image_text .*codes "(\w+)"'),
}
# The definitions that spell what no rule has: words of commands, sources that are read, bytes, objects in JSON, and worked texts.
UNRULED = ['alw_config/specs/*', 'alw_image/specs/*', 'sparc_asm/specs/*', 'sparc_lex/specs/*', '*/specs/*Json', 'alw_report/specs/Worked']
# The texts that no rule has.
WITHOUT_RULE = {'image', 'json', 'profile'}


def files_in(patterns):
    """The files of crates/ that patterns name."""
    return {file for pattern in patterns for file in (ROOT / 'crates').glob(pattern)}


def texts_in(files):
    """The text of files."""
    return ''.join(file.read_text() for file in sorted(files))


def spelled_by(files):
    """The words of the texts that definitions spell."""
    spelled = re.findall(r'codes "([^"]*)"', texts_in(files).replace('\\n', ' '))
    return {word for text in spelled for word in WORD.findall(text)}


def rule_of(called):
    """The rule of what a call of the program writes, from its words; None where that has none."""
    command, *options = called.split() or ['']
    writes = COMMANDS[command].writes if command in COMMANDS else None
    form = dict(zip(options[::2], options[1::2])).get('--write', writes)
    return None if form in WITHOUT_RULE else words.OTHER.get((command, form), form)


def texts_of(row):
    """The texts of a case: what it writes, each with its rule and True; and what it reads, with False where that is refused for its form."""
    error, output = row.get('error', ''), row.get('output', '')
    yield 'refusal', error and error + '\n', True
    yield rule_of(row['words'].rpartition(' | ')[2]), output, True
    if ' text line ' in error and error.endswith('syntax'):
        yield COMMANDS[row['words'].split()[0]].reads, row.get('input'), False


def check_texts(findings, rules):
    """What each case writes is of its rule, what is refused for its form is not, and each line of a refusal in a table is that of a case."""
    forms, refused = {name: re.compile(grammars.expression(rules, name)) for name in rules}, set()
    for group, row in case_rows():
        refused.add(row.get('error', '').partition(': ')[2])
        for rule, text, wanted in texts_of(row):
            if rule in forms and text and isinstance(text, str) and wanted != bool(forms[rule].fullmatch(text) and grammars.is_counted(text)):
                findings.say(FORMATS, 0, f'a text of the case {group}: {row["name"]} is {"no" if wanted else "a"} {rule}, and it should{"" if wanted else " not"}')
    for number, cell in cells_below(FORMATS, 'line'):
        if cell.strip('`') not in refused:
            findings.say(FORMATS, number, f'no case is refused with {cell}')


def check_kinds(findings, rules):
    """Each text has a rule, which begins as tools/words.py says, but for those without one; and the table of formats says which commands read it."""
    for name, (title, _, _) in words.KINDS.items():
        if name in WITHOUT_RULE:
            continue
        if name not in rules:
            findings.say(FORMATS, 0, f'has no rule {name}, which tools/words.py names')
        elif not re.sub(r'^(\(\?:)+', '', grammars.expression(rules, name)).startswith(re.escape(title)):
            findings.say(FORMATS, 0, f"its rule {name} doesn't begin with {title}, as tools/words.py says")
    for (line, formats), (_, writers), (_, readers) in zip(*(cells_below(FORMATS, name) for name in ('format', 'written by', 'read by'))):
        kinds = {name.lower() for link in re.findall(r'\[(.*?)\]', formats) for name in link.split(', ')}
        reading = {name for name, command in COMMANDS.items() if command.reads in kinds}
        writing = {name for name, command in COMMANDS.items() if len(command.written()) == 1 and command.writes in kinds}
        if set(SPAN.findall(readers)) != reading or not writing <= set(SPAN.findall(writers)):
            findings.say(FORMATS, line, f'tools/words.py has {", ".join(sorted(writing)) or "nobody"} as writers and {", ".join(sorted(reading)) or "nobody"} as readers')


def check_formats(findings):
    """docs/FORMATS.md: the words and the names of all that is written, and rules that cases are of."""
    rules = grammars.rules_of(FORMATS.read_text())
    said = {word for text in grammars.spelled_in(rules) for word in WORD.findall(text)}
    spelled = spelled_by(files_in(['*/specs/**/*.antt']) - files_in(f'{name}.antt' for name in UNRULED))
    for word in sorted(said ^ spelled):
        findings.say(FORMATS, 0, f'its rules say {word}, which no definition spells' if word in said else f'its rules lack {word}, which a definition spells')
    for name in sorted(grammars.twice_named(FORMATS.read_text())):
        findings.say(FORMATS, 0, f'two rules are named {name}')
    for name in sorted(grammars.unnamed(rules)):
        findings.say(FORMATS, 0, f'a rule names {name}, which none has')
    for head, (files, form) in LISTED.items():
        check_listed(findings, FORMATS, (head,), set(re.findall(form, texts_in(files_in(files)), re.M)))
    if not grammars.unnamed(rules):
        check_kinds(findings, rules)
        check_texts(findings, rules)


def spelled_words():
    """The words that the program reads or writes, which definitions spell; what rules are given; and letters, which stand for operands."""
    return spelled_by(files_in(['*/specs/**/*.antt'])) | {*grammars.GIVEN, *'abcdefghijklmnopqrstuvwxyz'}


def documents(repository):
    """The files whose names are checked, each with the folder that its paths may start from."""
    yield ROOT / 'README.md', ROOT
    yield ROOT / 'bench' / 'README.md', ROOT / 'bench'
    for file in sorted((ROOT / 'docs').glob('*.md')):
        yield file, ROOT / 'docs'
    for crate in repository.values():
        if crate.readme().is_file():
            yield crate.readme(), crate.folder


# The checks of whole pages, each with what it reads of them: those that look at sources, and those that don't.
BY_SOURCES = {
    check_promises: 'crates/*/README.md',
    floors.check_architecture: 'crates.txt docs/ARCHITECTURE.md crates/*/README.md',
    floors.check_floors: 'crates.txt',
    check_refusals: 'docs/REFUSALS.md',
}
BY_THEMSELVES = {
    check_readme: 'README.md',
    check_words: 'README.md alewife docs/alewife.1 docs/completions/* tools/words.json',
    check_times: 'README.md alewife docs/alewife.1',
    check_took: 'crates.txt tools/took.csv',
    check_cases: 'cases/*',
    check_examples: 'README.md docs/*.md examples/**/*',
    check_language: 'docs/LANGUAGE.md',
    check_formats: 'docs/FORMATS.md',
}


def is_read(patterns, changed):
    """Whether one of these files is the changed one, which is None where all may be."""
    return changed is None or any(changed in ROOT.glob(pattern) for pattern in patterns.split())


def check_pages(findings, repository, changed):
    """The checks of whole pages."""
    for each in (each for each, patterns in BY_SOURCES.items() if is_read(patterns, changed)):
        each(findings, repository)
    for each in (each for each, patterns in BY_THEMSELVES.items() if is_read(patterns, changed)):
        each(findings)


def check_all(findings, repository, changed=None):
    """All checks, or those that read the one file that has changed."""
    for crate in (crate for crate in repository.values() if is_read(f'crates/{crate.name}/README.md', changed)):
        check_crate(findings, crate, repository)
    for crate in repository.values():
        for edit in (edit for edit in sorted(crate.folder.glob('must-fail/*.edit')) if changed in (None, edit)):
            check_fit(findings, edit, crate)
    for file, folder in ((file, folder) for file, folder in documents(repository) if changed in (None, file)):
        check_names(findings, file, repository, folder)
        check_links(findings, file)
        places.check(findings, file, OUTSIDE)
        if file == places.QUOTING:
            places.check_quotes(findings, file)
    check_pages(findings, repository, changed)


def main():
    findings = Findings(placed)
    check_all(findings, read_crates())
    if findings.count:
        print(f'documents: {findings.count} findings')
    return 1 if findings.count else 0


if __name__ == '__main__':
    sys.exit(main())
