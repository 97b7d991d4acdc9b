"""Tables that say where a thing stands: the files that their cells name are there, and have the names of their rows.

A cell names files by their paths from crates/, `alw_mesh/src/meshes.rt`, by a folder and what stands in it, `alw_mesh/src`: `meshes`, `joins`,
or by a folder alone, which stands for all files below it.
"""
import re
from functools import lru_cache

from alewife import ROOT
from pages import SPAN, WORD, is_name, tables_of

CRATES = ROOT / 'crates'
QUOTING = ROOT / 'docs' / 'DEFINITIONS.md'
GROUP = re.compile(r'`([\w./-]+)`(: (?:`[\w/]+`(?:, | and )?)+)?')
TEXTS = {'.antt', '.rt', '.md', '.py', '.js', '.html', '.jsonl', '.s', '.c', '.edit'}
ANTT_NAME = re.compile(
    r'^ *(?:abbrev |unfoldable )?(?:pub )?(?:(?:record|data|mod|ruleset) ([^\s:]+)|([^\s({:]+)(?= :))', re.M)
# The head of a table in docs/DEFINITIONS.md, whose third cell names the file that has its definitions: of alw_model, or of the crate that it names.
BESIDE = ['definition', 'in a sentence', 'file', 'modelled on']


def below(folder):
    """The files of a folder, or a file by itself."""
    return [file for file in folder.rglob('*') if file.is_file()] if folder.is_dir() else [folder] if folder.is_file() else []


def found_at(path):
    """The files of a path from crates/ or from the top; .antt may be left out."""
    return next((files for base in (CRATES, ROOT) for end in ('', '.antt') if (files := below(base / (path + end)))), [])


def in_folder(path, name):
    """The files of a folder of a crate that have this name, wherever below it they stand."""
    return sorted(file for end in ('.antt', '.rt') for file in (CRATES / path).rglob(name + end))


def groups_in(cell):
    """The folders of a cell with a ':' behind them, each with the names of its files that follow."""
    return [(path, SPAN.findall(names)) for path, names in GROUP.findall(cell) if names and (CRATES / path).is_dir()]


def files_of(cells):
    """The files that cells name."""
    text = ' '.join(cells)
    grouped = groups_in(text)
    found = [file for path, names in grouped for name in names for file in in_folder(path, name)]
    single = [path for path, names in GROUP.findall(text) if not names and ('/' in path or '.' in path)]
    return {*found, *(file for path in single for file in found_at(path))}


@lru_cache(maxsize=None)
def words_in(file):
    """The words of a file, its own name, and the names of the files beside it."""
    return {*WORD.findall(file.read_text()), *(each.stem for each in file.parent.iterdir())} if file.suffix in TEXTS else set()


@lru_cache(maxsize=None)
def declared(file):
    """What a file of specs/ or proofs/ declares, with fields and constructors."""
    bare = re.sub(r'--.*', '', file.read_text())
    return {name for pair in ANTT_NAME.findall(bare) for name in pair if name}


def check_groups(findings, file, row):
    """In a cell of the form `crate/specs`: `A`, `B` each name is a file of that folder."""
    for path, name in ((path, name) for cell in row.cells for path, names in groups_in(cell) for name in names):
        if not in_folder(path, name):
            findings.say(file, row.line, f'{path} has no file {name}')


def check_row(findings, file, row, known):
    """What else a row names stands in one of its files."""
    files = files_of(row.cells)
    words = set().union(known, *(words_in(each) for each in files))
    for span in (span for cell in row.cells[1:] for span in SPAN.findall(cell) if files and is_name(span)):
        for word in sorted(set(WORD.findall(span)) - words):
            findings.say(file, row.line, f'no file of its row has {word} (in `{span}`)')


def check_beside(findings, file, row):
    """What a row of DEFINITIONS.md names is of the file that it names."""
    files, *crate = re.split(', of ', row.cells[2])
    folder = f"{SPAN.findall(crate[0])[0] if crate else 'alw_model'}/specs"
    found = [each for name in SPAN.findall(files) for each in in_folder(folder, name)]
    names = set().union(*(declared(each) for each in found))
    for name in sorted(set(SPAN.findall(row.cells[0])) - names):
        findings.say(file, row.line, f'{row.cells[2]} has no {name}')


def check_defined(findings, file, row):
    """What a row says is defined in a file, `a`, `b` of `File`, is."""
    for names, stem in re.findall(r'((?:`\w+`(?:, )?)+) of `(\w+)`', row.cells[-1]):
        had = set().union(*(declared(each) for each in CRATES.glob(f'*/specs/{stem}.antt')))
        for name in sorted(set(SPAN.findall(names)) - had):
            findings.say(file, row.line, f'no {stem}.antt has {name}')


@lru_cache(maxsize=None)
def defined_lines():
    """The lines of all definitions."""
    return {line.strip() for each in CRATES.glob('*/specs/**/*.antt') for line in each.read_text().splitlines()}


def check_quotes(findings, file):
    """Each line of an indented block stands in a file of specs/."""
    for number, line in enumerate(file.read_text().splitlines(), 1):
        if line.startswith('    ') and line.strip() not in defined_lines():
            findings.say(file, number, f'no file of specs/ has the line {line.strip()}')


def check(findings, file, known):
    """The tables of a document. `known` are the words that it may say of any file."""
    for head, rows in tables_of(file.read_text()):
        for row in rows:
            check_groups(findings, file, row)
            if head[0] == 'place':
                check_row(findings, file, row, known)
            if head == BESIDE:
                check_beside(findings, file, row)
            if head[-1] == 'where it is defined':
                check_defined(findings, file, row)
