#!/usr/bin/env python3
"""Writes the table of docs/ARCHITECTURE.md: the crates of crates.txt floor by floor, and of each the first sentence of its README.

    .ci/floors.py           writes the table
    .ci/floors.py --check   ends with 1 where the table isn't what would be written, and says so
"""
import re
import sys
from dataclasses import dataclass
from pathlib import Path

sys.path.insert(0, str(Path(__file__).resolve().parent.parent / 'tools'))
sys.dont_write_bytecode = True
from alewife import ROOT
from words import between

CRATES = ROOT / 'crates.txt'
PAGE = ROOT / 'docs' / 'ARCHITECTURE.md'
HEAD, BEHIND = '| crate | what it is |\n|---|---|\n', '\n## '
STALE = "its table isn't what crates.txt and the crates' READMEs say today: run .ci/floors.py"
FLOOR = re.compile(r'^# (\w+)(?:, on ([\w, ]+))?: (.*)\n((?:\w+.*\n)+)', re.M)
CRATE = re.compile(r'^(\w+)[^:\n]*:(.*)$', re.M)
SENTENCE = re.compile(r'# \w+\n\n((?:.+\n)*?.+?)\.\s')


@dataclass
class Floor:
    """A floor: its name, the floors that its crates stand on beside it, what it is, and its crates, each with those that it lists."""
    name: str
    below: set
    about: str
    crates: dict


def read():
    """The floors of crates.txt."""
    found = FLOOR.findall(CRATES.read_text() + '\n')
    return [Floor(name, {*below.split(', ')} - {''}, about, dict(CRATE.findall(rows))) for name, below, about, rows in found]


def crates():
    """The crates of crates.txt in their order, each with those that it lists."""
    return {name: used.split() for name, used in CRATE.findall(CRATES.read_text())}


def crates_below(top):
    """A crate and all that it stands on."""
    below, found, left = crates(), set(), {top}
    while left:
        found |= left
        left = {other for name in left for other in below[name] if other in below} - found
    return found


def about(name):
    """What a crate is, by the first sentence of its README, or nothing."""
    file = ROOT / 'crates' / name / 'README.md'
    found = SENTENCE.match(file.read_text()) if file.is_file() else None
    return ' '.join(found[1].split()) if found else ''


def page():
    """docs/ARCHITECTURE.md, with its table."""
    rows = ''
    for floor in read():
        rows += f'| **{floor.name}** | |\n' + ''.join(f'| `{name}` | {about(name)} |\n' for name in floor.crates)
    return between(PAGE.read_text(), HEAD, BEHIND, rows)


def check_architecture(findings, repository):
    """crates.txt and the folders of crates/ have the same crates, each says what it is, and docs/ARCHITECTURE.md has that."""
    for name in sorted(set(crates()) ^ set(repository)):
        findings.say(CRATES, 0, f'{name} stands in crates.txt or in crates/, and not in both')
    for crate in (crate for crate in repository.values() if not about(crate.name)):
        findings.say(crate.readme(), 0, 'has no sentence below its title')
    if PAGE.read_text() != page():
        findings.say(PAGE, 0, STALE)


def check_floors(findings, repository):
    """A crate stands on those of its own floor and of the floors that the line above its floor names."""
    floors = read()
    floor_of = {name: floor.name for floor in floors for name in floor.crates}
    for name in sorted(set(repository) - set(floor_of)):
        findings.say(CRATES, 0, f'{name} stands on no floor')
    for floor in floors:
        for name in sorted(floor.below - {other.name for other in floors}):
            findings.say(CRATES, 0, f'{floor.name} names a floor {name} that is none')
        for crate, used in floor.crates.items():
            for other in used.split():
                if floor_of.get(other, floor.name) not in floor.below | {floor.name}:
                    findings.say(CRATES, 0, f'{crate} of {floor.name} stands on {other} of {floor_of[other]}')


def main(arguments):
    """Writes the table, or says that it isn't current."""
    text = page()
    if arguments != ['--check']:
        PAGE.write_text(text)
    elif PAGE.read_text() != text:
        print(f'{PAGE.relative_to(ROOT)}: {STALE}')
        return 1
    return 0


if __name__ == '__main__':
    sys.exit(main(sys.argv[1:]))
