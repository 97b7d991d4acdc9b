#!/usr/bin/env python3
"""Writes docs/PROMISES.md: all promises, from the tables of the crates' READMEs, and what a reader must believe of them.

    .ci/promises.py           writes the page
    .ci/promises.py --check   ends with 1 where the page isn't what would be written, or where the order in which docs/DEFINITIONS.md
                              reads the headline has other files than the headline reaches, and says so

A promise, its clause and its edit stand in a row of its crate's README. The page has the rows floor by floor, with what each
reaches beside it (.ci/reach.py), an index of the named ones with counts, and lists of what those reach that README.md links to.
"""
import sys

sys.dont_write_bytecode = True
import documents
import floors
import places
import reach
import trusted
from documents import ROOT

PAGE = ROOT / 'docs' / 'PROMISES.md'
ORDER = ROOT / 'docs' / 'DEFINITIONS.md'
HEAD = """# Promises

What is proved: of each crate the promises, each with the functions and clauses that carry it, and an edit that the
proofs refuse. An edit is a wrong body, a wrong definition, or (of laws) a wrong claim. Beside each promise stand the
lines and files of `specs/` that its clauses reach. `.ci/promises.py` writes this page from the crates' READMEs, and the
gate refuses one that isn't current.

To read a promise, open its crate's README, then the function in `src/`, then the definitions that the clause names in
`specs/`. `docs/DEFINITIONS.md` says how to read a definition, and in which order to read those of the headline, whose
clause is `headline` of `alewife` in `crates/alw_cli/src/top.rt`.

## What must be believed

A clause says what its definitions say: those that it names, those that these name, and so on. They are what a reader
must believe of it, besides the clause itself and the toolchain. The checker holds code and proofs to them; all other
definitions of `specs/` play no part. Lines are without comments and imports. Types are those of Rust that definitions
or signatures name: a reader believes their fields, or what contracts see of them. Words are those of the toolchain's
libraries. `.ci/trusted.py PROMISE` lists by name what a promise reaches.

| floor | promise | files | definitions | lines | types | words |
|---|---|---|---|---|---|---|"""
LISTS = """
# What is reached, by name

Of each promise that `README.md` links to: the files of `specs/`, with the lines that are reached of each, the types, and
the words of the toolchain's libraries."""
UNREACHED = """
# Reached by no promise

Definitions of `specs/` that no promise reaches, named or not: words of private functions and of proofs.
"""


def told(sources, items):
    """How much is reached."""
    files, _, lines, *_ = trusted.counts_of(sources, items)
    return f'{lines:,} lines, {files} file{"s" if files > 1 else ""}' if files else 'no definition'


def link_to(name):
    """A link to the first row of a promise."""
    return f'[{name}](#{documents.anchor(name)})'


def indexed(repository, sources, reaches):
    """The index: the named promises floor by floor, each with a link to its first row and with what it reaches."""
    names = documents.named_rows(repository)
    for floor in floors.read():
        for name in (name for name, rows in names.items() if rows[0][0].name in floor.crates):
            yield f'| {floor.name} | {link_to(name)} | {" | ".join(map(str, trusted.counts_of(sources, reaches[name])))} |'
    yield f'| | all of them | {" | ".join(map(str, trusted.counts_of(sources, set().union(*reaches.values()))))} |'


def table_of(sources, crate, seen):
    """The table of a crate. A name that wasn't seen before is a place that links lead to."""
    yield from ('| promise | function, clause | edit that is refused | reaches |', '|---|---|---|---|')
    for row in documents.promise_rows(crate):
        promise, contract, edits = row.cells
        name = documents.name_of(row)
        place = f'<a id="{documents.anchor(name)}"></a>' if name and name not in seen else ''
        seen.add(name)
        yield f'| {place}{promise} | {contract} |{f" {edits} " if edits else " "}| {told(sources, reach.reach_of(sources, crate, row))} |'


def tables(repository, sources):
    """The promises, floor by floor."""
    seen = set()
    for floor in floors.read():
        yield from ('', f'# Floor: {floor.name}', '', f'{floor.about[0].upper()}{floor.about[1:]}.')
        for crate in (repository[name] for name in floor.crates if name in repository and documents.promise_rows(repository[name])):
            yield from ('', f'## {crate.name}', '', *table_of(sources, crate, seen))


def lists(sources, reaches):
    """What the promises reach that README.md links to, folded."""
    places = documents.linked_promises()
    for name in (name for name in reaches if documents.anchor(name) in places):
        yield from ('', f'<details><summary>{name}</summary>', '', '\n\n'.join(trusted.told(sources, reaches[name])), '', '</details>')


def unreached(repository, sources):
    """The definitions that no row of a table reaches, as a paragraph."""
    every = set().union(*(reach.reach_of(sources, crate, row) for crate in repository.values() for row in documents.promise_rows(crate)))
    others = {('definition', *key, name) for key, spec in sources.specs.items() for name in spec.definitions} - every
    return trusted.filled(f'{trusted.by_file(sources, others)}.')


def page(repository, sources, reaches):
    """The page."""
    parts = [HEAD, *indexed(repository, sources, reaches), *tables(repository, sources), LISTS, *lists(sources, reaches), UNREACHED, unreached(repository, sources)]
    return '\n'.join(parts) + '\n'


def is_in_order(sources, items):
    """Whether docs/DEFINITIONS.md has, in the table that begins with files, those that the headline reaches. Says what is wrong."""
    rows = [row for head, rows in documents.tables_of(ORDER.read_text()) if head[0] == 'files' for row in rows]
    said = {(path.partition('/')[0], name) for row in rows for path, names in places.groups_in(row.cells[0]) for name in names}
    reached = {place[:2] for place in reach.of_kind(items, 'definition')}
    for crate, name in sorted(said ^ reached):
        fault = 'reads {} of {}, which the headline does not reach' if (crate, name) in said else 'lacks {} of {}, which the headline reaches'
        print(f'{ORDER.relative_to(ROOT)}: {fault.format(name, crate)}')
    return said == reached


def is_current(text):
    """Whether the page is as it would be written."""
    if PAGE.is_file() and PAGE.read_text() == text:
        return True
    print("docs/PROMISES.md: is not what the crates' READMEs and the definitions say today: run .ci/promises.py")
    return False


def main():
    repository = documents.read_crates()
    sources = reach.read_sources(repository)
    reaches = trusted.reaches_of(repository, sources)
    text = page(repository, sources, reaches)
    if sys.argv[1:] == ['--check']:
        return 0 if is_current(text) & is_in_order(sources, reaches['headline']) else 1
    PAGE.write_text(text)
    return 0


if __name__ == '__main__':
    sys.exit(main())
