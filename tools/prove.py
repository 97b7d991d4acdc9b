#!/usr/bin/env python3
"""Proves the crates of the program side by side: tools/prove.py SCRATCH.

A crate begins once those below it stand, first the one with the longest chain of others above it, by the seconds that tools/took.csv has of each. It
gets a job for each processor that no other waits for, at most four, if memory holds them. The one with the longest chain of all gets two where there
are more than two processors, of which two are idle. The toolchain lets one command at a time work in a checkout, so each works in a lane: a copy of
the sources below SCRATCH. What it makes goes to the checkout, and to the other lanes by links. The program's own crate comes last, in the checkout:
one call proves it and builds the program, by one job, since each job more reads the crates below anew. Standard error tells which crates stand, and
how long each took. Ends with 1 where one isn't proved, or the program isn't built, and says what the toolchain said of it.
"""
import csv
import os
import re
import shutil
import signal
import subprocess
import sys
import time
from concurrent.futures import FIRST_COMPLETED, ThreadPoolExecutor, wait
from contextlib import suppress
from pathlib import Path

sys.dont_write_bytecode = True
from alewife import ROOT

PROGRAM = 'alw_cli'
TOOK = 'tools/took.csv'
# What the toolchain says before it runs what it has built.
RUNNING = 'rt: running out/alw_cli'
SOURCES = ('src', 'specs', 'proofs')
CRATE = re.compile(r'^(\w+)[^:\n]*:(.*)$', re.M)
FAULT = re.compile(r'^error|failed|not run', re.M)
MOST_JOBS = 4
# The seconds of a crate that wasn't measured yet.
UNKNOWN = 60
JOB_BYTES = 1_500_000_000


def say(text):
    """A line on standard error."""
    print(f'alewife: {text}', file=sys.stderr, flush=True)


def link_or_copy(one, other):
    """Gives a file a second name, or a copy where that can't be."""
    try:
        os.link(one, other)
    except OSError:
        shutil.copy2(one, other)


def give(folder, to, copied=link_or_copy):
    """Gives a folder a second place, where it is there."""
    if folder.is_dir():
        shutil.rmtree(to, ignore_errors=True)
        shutil.copytree(folder, to, copy_function=copied)


def copy_of_work(one, other):
    """What a check kept has a second name where the next one replaces it, and else a copy, which that one writes into."""
    return link_or_copy(one, other) if str(one).endswith('.oantt') else shutil.copy2(one, other)


def move(folder, to):
    """A folder takes the place of another, where it is there."""
    if folder.is_dir():
        shutil.rmtree(to, ignore_errors=True)
        to.parent.mkdir(exist_ok=True)
        folder.rename(to)


# ---- what is to be proved


def crates_of_program(root):
    """The crates that the program is made of, each with those that it stands on."""
    every = {name: used.split() for name, used in CRATE.findall((root / 'crates.txt').read_text())}
    found = {}

    def add(name):
        below = [other for other in every[name] if other in every]
        for other in below:
            if other not in found:
                add(other)
        found[name] = below

    add(PROGRAM)
    return found


def chains(root, crates):
    """The longest chain of crates from each one upward, in seconds."""
    with (root / TOOK).open(newline='') as file:
        took = {row['crate']: int(row['seconds']) for row in csv.DictReader(file)}
    above = {name: [other for other, used in crates.items() if name in used] for name in crates}
    longest = {}
    for name in reversed(crates):
        longest[name] = took.get(name, UNKNOWN) + max((longest[other] for other in above[name]), default=0)
    return longest


def jobs_that_fit():
    """A job for each processor, if the memory that is free holds them."""
    processors = len(os.sched_getaffinity(0))
    free = re.search(r'^MemAvailable: *(\d+)', Path('/proc/meminfo').read_text(), re.M)
    return max(1, min(processors, int(free[1]) * 1024 // JOB_BYTES)) if free else processors


# ---- proving


class Proofs:
    """Proofs that are under way: which crates stand, which wait, and the lanes that are free."""

    def __init__(self, root, scratch):
        self.root, self.crates = root, crates_of_program(root)
        self.most, self.longest = jobs_that_fit(), chains(root, self.crates)
        self.left = sorted((name for name in self.crates if name != PROGRAM), key=lambda name: -self.longest[name])
        self.stand, self.running, self.checks = set(), {}, set()
        self.free = [self.lane(scratch / f'lane-{number}') for number in range(min(self.most, len(self.left)))]
        self.lanes = list(self.free)

    def lane(self, folder):
        """A copy of the sources, with the libraries that were built earlier."""
        for name in self.crates:
            for part in SOURCES:
                give(self.root / 'crates' / name / part, folder / 'crates' / name / part)
            give(self.root / 'crates' / name / 'out' / 'rlib', folder / 'crates' / name / 'out' / 'rlib')
        lines = CRATE.finditer((self.root / 'crates.txt').read_text())
        (folder / 'crates.txt').write_text(''.join(f'{line[0]}\n' for line in lines if line[1] in self.crates))
        return folder

    def call(self, folder, *words):
        """What the toolchain says in a crate's folder, and how it ended."""
        how = {'stdin': subprocess.DEVNULL, 'stdout': subprocess.PIPE, 'stderr': subprocess.STDOUT, 'start_new_session': True}
        with subprocess.Popen(['rt', *words], cwd=folder, **how) as check:
            self.checks.add(check.pid)
            said = check.communicate()[0].decode(errors='replace')
            self.checks.remove(check.pid)
        return check.returncode, said

    def prove_in(self, lane, name, jobs):
        """Proves a crate in a lane. What was kept of it serves again, and goes back to the checkout."""
        there, here = lane / 'crates' / name / 'out', self.root / 'crates' / name / 'out'
        give(here / 'incremental', there / 'incremental', copy_of_work)
        begun = time.monotonic()
        status, said = self.call(there.parent, 'lib', '--jobs', str(jobs))
        for part in ('incremental', 'rlib'):
            move(there / part, here / part)
        return status, said, round(time.monotonic() - begun)

    def begin(self, pool):
        """Begins what can begin."""
        ready = [name for name in self.left if self.stand.issuperset(self.crates[name])]
        for at, name in enumerate(ready):
            idle = self.most - sum(jobs for _, _, jobs in self.running.values())
            if idle == 0:
                return
            least = min(idle, 2 if self.most > 2 and self.is_longest(name) else 1)
            jobs = max(least, min(MOST_JOBS, idle // (len(ready) - at)))
            lane = self.free.pop()
            self.left.remove(name)
            self.running[pool.submit(self.prove_in, lane, name, jobs)] = name, lane, jobs

    def is_longest(self, name):
        """No crate that is left or under way has a longer chain above it."""
        others = [*self.left, *(other for other, _, _ in self.running.values())]
        return all(self.longest[name] >= self.longest[other] for other in others)

    def end(self, done):
        """A crate stands: its library goes to all lanes. Answers whether it is proved."""
        name, lane, _ = self.running.pop(done)
        status, said, seconds = done.result()
        if status != 0:
            return self.fail(name, said)
        for other in self.lanes:
            give(self.root / 'crates' / name / 'out' / 'rlib', other / 'crates' / name / 'out' / 'rlib')
        self.free.append(lane)
        self.stand.add(name)
        say(f'{len(self.stand)} of {len(self.crates)} crates: {name}, {seconds} s')
        return True

    def fail(self, name, said, lacks='proved'):
        """Says what the toolchain said of a crate, and what it lacks, and ends all other checks."""
        lines = said.splitlines()
        print('\n'.join([line for line in lines if FAULT.search(line)] or lines[-20:]), file=sys.stderr)
        say(f'{name} is not {lacks}')
        self.stop()
        return False

    def stop(self):
        """Ends the checks that are under way."""
        for process in list(self.checks):
            with suppress(ProcessLookupError):
                os.killpg(process, signal.SIGTERM)

    def run(self):
        """Proves all. Answers whether all are proved."""
        with ThreadPoolExecutor(max(1, len(self.lanes))) as pool:
            try:
                self.begin(pool)
                while self.running:
                    for done in wait(self.running, return_when=FIRST_COMPLETED).done:
                        if not self.end(done):
                            return False
                    self.begin(pool)
            except BaseException:
                self.stop()
                raise
        return self.build()

    def build(self):
        """Proves and builds the program, by rt run, which runs it on nothing. Answers whether it stands."""
        say('building the program')
        _, said = self.call(self.root / 'crates' / PROGRAM, 'run', '--jobs', '1')
        return RUNNING in said or self.fail(PROGRAM, said, 'proved and built')


def main(arguments):
    if len(arguments) != 1:
        sys.exit(__doc__.split('\n')[0])
    for name in (signal.SIGINT, signal.SIGTERM):
        signal.signal(name, lambda *_: sys.exit(1))
    sys.exit(0 if Proofs(ROOT, Path(arguments[0])).run() else 1)


if __name__ == '__main__':
    main(sys.argv[1:])
