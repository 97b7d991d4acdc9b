#!/usr/bin/env python3
"""Builds the program without proofs, as fast as the proved one: tools/unproved.py SCRATCH PROGRAM.

`rt try` compiles the sources as they stand. It gives the toolchain's compiler one module, in which a check stands before each step that a proof would
allow, and wants nothing of it made fast. Here it runs from a copy of the toolchain's folders in which a script stands for the compiler: the script
keeps the module, and ends the try. The checks go from the module, and the compiler makes it fast as `rt run` has it do for a proved program. What
the sources say of inlining the module doesn't, so it is read from them; without it the program takes half as many instructions more.
Where a contract is broken anything may happen, so this is for sources that are proved elsewhere or are about to be. Ends with 1 where the toolchain
isn't as this expects, and with 2 where it refuses the sources, which standard error tells.
"""
import re
import shlex
import shutil
import signal
import subprocess
import sys
from pathlib import Path

sys.dont_write_bytecode = True
from alewife import ROOT

PROGRAM = 'alw_cli'
TARGET = 'x86_64-unknown-linux-gnu'
REFUSED, FAULT = re.compile(r'^error', re.M), re.compile(r'\berror: ')
# Asks of the compiler what rt run does: code for processors of 2009 and later, with all that makes it fast but vectors.
MARCH, FAST = '-march=x86-64-v2', '-fPIE -O3 -Xclang -fmerge-functions -mllvm -mergefunc-use-aliases -fno-vectorize -fno-slp-vectorize'.split()
# A try first has the compiler make a small module, to see whether it works.
KEEPER = '''#!/bin/sh
if [ -f module.bc ] && [ "$(wc -c <module.bc)" -gt 1000000 ]; then
    printf '%s\\n' "$@" >{flags}
    cp module.bc {module}
    exit 1
fi
exec {compiler} "$@"
'''
STEPS = 'try --steps 1 --seconds 1 -- gen'.split()


class Unexpected(Exception):
    """What isn't as it is expected of the toolchain, in a line."""


# ---- the toolchain


def toolchain():
    """The folder of the toolchain, by the page that it names."""
    said = subprocess.run(['rt', 'doc'], stdout=subprocess.PIPE, text=True).stdout.strip()
    kit = Path(said).parent
    missing = [name for name in ('bin/rt', 'bin/rtlib.py', 'bin/rattle-link', 'toolchain/bin/clang', 'c') if not said or not (kit / name).exists()]
    if missing:
        raise Unexpected(f'there is no {missing[0]} in its folder')
    return kit


def mirror(folder, to, *without):
    """Makes a folder of links to what another has, but for some names."""
    to.mkdir()
    for file in folder.iterdir():
        if file.name not in without:
            (to / file.name).symlink_to(file)


def keep_modules(kit, copy, scratch):
    """Makes a copy of the toolchain whose compiler keeps the module. The scripts look beside themselves for the rest, so that they are no links, and
    the prover is left out, which rt try asks for hints."""
    scripts, compiler = ('rt', 'rtlib.py'), 'clang'
    mirror(kit, copy, 'bin', 'toolchain')
    mirror(kit / 'bin', copy / 'bin', 'rattle', *scripts)
    for name in scripts:
        shutil.copy2(kit / 'bin' / name, copy / 'bin' / name)
    mirror(kit / 'toolchain', copy / 'toolchain', 'bin')
    mirror(kit / 'toolchain' / 'bin', copy / 'toolchain' / 'bin', compiler)
    keeper = copy / 'toolchain' / 'bin' / compiler
    words = {'flags': scratch / 'flags', 'module': scratch / 'module.bc', 'compiler': kit / 'toolchain' / 'bin' / compiler}
    keeper.write_text(KEEPER.format(**{name: shlex.quote(str(path)) for name, path in words.items()}))
    keeper.chmod(0o755)


def called(words, **how):
    """Calls a tool: what it writes. It ends before this does."""
    with subprocess.Popen([str(word) for word in words], stdin=subprocess.DEVNULL, stdout=subprocess.PIPE, stderr=subprocess.STDOUT, text=True,
                          errors='replace', **how) as tool:
        try:
            said = tool.communicate()[0]
        except BaseException:
            tool.terminate()
            tool.wait()
            raise
    return tool.returncode, said


def keep_module(kit, scratch):
    """Has rt try make the module of the program, and the words for its compiler: those that say how, without the machine that it is for."""
    keep_modules(kit, scratch / 'kit', scratch)
    _, said = called([sys.executable, '-B', scratch / 'kit' / 'bin' / 'rt', *STEPS], cwd=ROOT / 'crates' / PROGRAM)
    if not (scratch / 'module.bc').exists():
        print('\n'.join(said.splitlines()[-20:]), file=sys.stderr)
        if REFUSED.search(said):
            sys.exit(2)
        raise Unexpected('rt try gave its compiler no module')
    flags = (scratch / 'flags').read_text().splitlines()
    return [flag for flag in flags[:flags.index('-c')] if flag != '-Werror' and not flag.startswith('-march=')]


# ---- what the sources say of inlining


HINTS = {'inline': 'inlinehint', 'inline(always)': 'alwaysinline', 'inline(never)': 'noinline', 'cold': 'cold'}
HINT = re.compile(rf'\s*#\[({"|".join(map(re.escape, HINTS))})\]')
FUNCTION = re.compile(r'( *)(?:pub(?:\([^)]*\))? )?(?:const )?(?:unsafe )?fn (\w+)')
METHODS = re.compile(r'(?:unsafe )?impl(?:<.*?>)? (?:(?:\w+::)*(\w+)(?:<.*>)? for )?(?:&(?:mut )?)?(?:\w+::)*(\w+)')


def short(name):
    """A function's name as it is compared: a method's without modules, for its type may stand in another one, and each without what it is made for."""
    parts = re.sub(r'::<.*', '', name).split('::')
    return '::'.join([parts[0], *parts[-2:]] if len(parts) > 2 and parts[-2][:1].isupper() else parts)


def hints_in(source, path):
    """The functions of a file below a folder of sources that have hints: each by its name, with its attributes. A method's type has the name of its
    trait behind it."""
    modules = [source.parent.name, *(part for part in path.relative_to(source).with_suffix('').parts if part not in ('lib', 'main', 'mod'))]
    hints, of = [], ''
    for line in path.read_text().splitlines():
        hint, function, methods = HINT.match(line), FUNCTION.match(line), METHODS.match(line)
        if methods:
            of = methods[2][0].upper() + methods[2][1:] + (methods[1] or '')
        elif hint:
            hints.append(HINTS[hint[1]])
        elif function:
            if hints:
                yield short('::'.join([*modules, *([of] if function[1] else []), function[2]])), ' '.join(hints)
            hints = []


def hints_of(kit):
    """The attributes of all functions that have hints, in the crates and in the toolchain's libraries."""
    sources = [*(ROOT / 'crates').glob('*/src'), *(kit / 'rattle').glob('*/src')]
    return dict(each for source in sources for path in source.glob('**/*.rt') for each in hints_in(source, path))


# ---- the module


CHECK, UNREACHABLE, TRAP = '  call void @"rattle-llvm-checks::', '::Unreachable"(i8 0)', '  call void @llvm.trap()'
FILL = re.compile(r'  call void @llvm\.memset\.p0\.i64\(ptr %r\d+, i8 -86, ')
DEFINITION = re.compile(r'define [^@]*@"?([^"(]+)"?\(')
ATTRIBUTES = 'attributes #'
SLOW = (('sanitize_address ', ''), ('"frame-pointer"="all"', 'nounwind'), ('"target-cpu"="x86-64"', '"target-cpu"="x86-64-v2"'))


def without_checks(lines):
    """The lines of a module without its checks, a trap before what can't be reached, and what fills room that nothing was written to."""
    trap = ''
    for line in lines:
        if line.startswith(CHECK):
            trap = '' if UNREACHABLE in line else trap
        elif not FILL.match(line):
            yield trap
            trap = line if line.startswith(TRAP) else ''
            yield '' if trap else line
    yield trap


def made_fast(line, hints):
    """A line of a module, where it defines a function with what the sources say of inlining, and where it has attributes without what is slow."""
    if line.startswith('define '):
        hint = hints.get(short(DEFINITION.match(line)[1]))
        return line.replace(' {\n', f' {hint} {{\n') if hint else line
    if line.startswith(ATTRIBUTES):
        for slow, fast in SLOW:
            line = line.replace(slow, fast)
    return line


def make_fast(module, to, hints):
    """Writes a module without its checks, and with the hints."""
    with open(module, errors='surrogateescape') as lines, open(to, 'w', errors='surrogateescape') as out:
        out.writelines(made_fast(line, hints) for line in without_checks(lines))


# ---- the call


def build(scratch, program):
    """Builds the program."""
    kit, plain, fast, made = toolchain(), scratch / 'plain.ll', scratch / 'fast.ll', scratch / 'program.o'
    compiler, flags = kit / 'toolchain' / 'bin' / 'clang', keep_module(kit, scratch)
    libraries = [kit / 'c' / name for name in ('libos_c.a', 'liblibc_c.a')]
    steps = (('write the module as text', [compiler, *'-x ir -S -emit-llvm -O0 -Xclang -disable-llvm-passes'.split(), scratch / 'module.bc', '-o', plain]),
             ('compile the module', [compiler, *flags, MARCH, '-c', '-x', 'ir', fast, '-o', made, *FAST]),
             ('link the program', [kit / 'bin' / 'rattle-link', '--target', TARGET, '--toolchain', kit / 'toolchain', '-o', program, made, *libraries]))
    for doing, words in steps:
        status, said = called(words, cwd=scratch)
        if status != 0:
            raise Unexpected(f'it fails to {doing}: {next(filter(FAULT.search, said.splitlines()), said.strip())}')
        if plain in words:
            make_fast(plain, fast, hints_of(kit))


def main(arguments):
    """Builds the program, or ends with the line that says why not."""
    if len(arguments) != 2:
        sys.exit(__doc__.split('\n')[0])
    for name in (signal.SIGINT, signal.SIGTERM, signal.SIGHUP):
        signal.signal(name, lambda *_: sys.exit(1))
    try:
        build(*map(Path, arguments))
    except (OSError, Unexpected, ValueError) as error:
        sys.exit(f"alewife: the toolchain isn't as the quick build wants it: {error}")


if __name__ == '__main__':
    main(sys.argv[1:])
