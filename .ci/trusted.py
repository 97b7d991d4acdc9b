#!/usr/bin/env python3
"""Says what a reader must believe of a promise: the definitions that its clauses reach, the types, and the toolchain's words.

    .ci/trusted.py headline 'one line'   lists them for these promises
    .ci/trusted.py                       counts them for each named promise
    .ci/trusted.py --check               ends with 1 where a file imports what reading it would lose, and says so

docs/PROMISES.md has the counts of all promises and the lists of some (.ci/promises.py).
"""
import argparse
import sys
import textwrap

sys.dont_write_bytecode = True
import documents
import reach

COUNTED = 'files', 'definitions', 'lines', 'types', 'words'


def reaches_of(repository, sources):
    """What each named promise reaches."""
    return {name: set().union(*(reach.reach_of(sources, crate, row) for crate, row in rows)) for name, rows in documents.named_rows(repository).items()}


def counts_of(sources, items):
    """How many files, definitions and lines are reached, and how many types and words of the toolchain."""
    definitions = reach.of_kind(items, 'definition')
    files = {place[:2] for place in definitions}
    return len(files), len(definitions), reach.lines_of(sources, items), len(reach.of_kind(items, 'type')), len(reach.of_kind(items, 'word'))


def by_first(rows):
    """Rows by their first cell, each with what stands behind it."""
    found = {}
    for first, rest in rows:
        found.setdefault(first, []).append(rest)
    return found


def by_file(sources, items):
    """The files that are reached, by crate, each with the lines that are reached of it."""
    files = by_first((item[1:3], item) for item in sorted(items) if item[0] == 'definition')
    crates = by_first((crate, f'{place} {reach.lines_of(sources, own)}') for (crate, place), own in files.items())
    return '; '.join(f'`{crate}`: {", ".join(places)}' for crate, places in crates.items())


def by_crate(items):
    """The types that are reached, by crate."""
    return '; '.join(f'`{crate}`: {", ".join(names)}' for crate, names in by_first(reach.of_kind(items, 'type')).items())


def by_library(items):
    """The words of the toolchain that are reached, by library: an operator without the places of its operands."""
    words = by_first((module.split('.')[0], name.replace('◌', ' ').strip()) for module, name in reach.of_kind(items, 'word'))
    return '; '.join(f'{library}: `{" ".join(sorted(set(names)))}`' for library, names in words.items())


def filled(text):
    """A paragraph, in lines of 118 characters."""
    return textwrap.fill(text, 118, break_long_words=False, break_on_hyphens=False)


def told(sources, items):
    """Paragraphs that list what is reached."""
    yield filled(f'{by_file(sources, items) or "No definition of the repository"}.')
    for about, names in (('Types', by_crate(items)), ('Words of the toolchain', by_library(items))):
        if names:
            yield filled(f'{about}: {names}.')


def put_list(sources, name, items):
    """Prints what a promise reaches: definitions by file, types and words."""
    print(f'{name}: ' + ', '.join(f'{count} {what}' for count, what in zip(counts_of(sources, items), COUNTED)))
    for (crate, place), names in by_first((item[:2], item[2]) for item in reach.of_kind(items, 'definition')).items():
        print(f'  crates/{crate}/specs/{place.replace(".", "/")}.antt: {" ".join(names)}')
    print(f'  types: {by_crate(items)}\n  words of the toolchain: {by_library(items)}'.replace('`', ''))


def is_whole(sources):
    """Says what is imported from the repository and was read as no definition and no type, so that no clause would reach it."""
    lost = list(reach.lost_imports(sources))
    for text, module, name in lost:
        print(f'{text.place} of {text.crate} imports {name} of {module}, which is read as no definition and no type')
    return not lost


def main():
    parser = argparse.ArgumentParser(description=__doc__.splitlines()[0])
    parser.add_argument('promises', nargs='*', metavar='PROMISE', help='a named promise of docs/PROMISES.md')
    parser.add_argument('--check', action='store_true', help='end with 1 where reading would lose what a file imports')
    asked = parser.parse_args()
    repository = documents.read_crates()
    sources = reach.read_sources(repository)
    if asked.check:
        return 0 if is_whole(sources) else 1
    reaches = reaches_of(repository, sources)
    for name in asked.promises:
        if name not in reaches:
            parser.error(f'no promise is named {name}')
        put_list(sources, name, reaches[name])
    for name, items in () if asked.promises else reaches.items():
        print(f'{name}: ' + ', '.join(f'{count} {what}' for count, what in zip(counts_of(sources, items), COUNTED)))
    return 0


if __name__ == '__main__':
    sys.exit(main())
