"""Images from C: compiles by a SPARC cross-compiler, turns what the machine lacks into what it has, links, and lays out an image.

Each fault is a BuildError with a line to show. Nothing is written but the image, whole, at the end.
"""
import os
import re
import shutil
import struct
import subprocess
import sys
import tempfile
from collections import namedtuple
from dataclasses import dataclass, field
from pathlib import Path

import placing
import stacks
from alewife import LINE_BYTES, MOST_WORDS, ROOT, SHARED, WORD, Image, Sizes

# What each program is compiled and linked with.
RUNTIME = ROOT / 'examples' / 'c'
COMPILERS = ['sparc64-linux-gnu-gcc'] + [f'sparc64-linux-gnu-gcc-{version}' for version in range(20, 9, -1)]
BINUTILS = ('as', 'ld', 'objcopy', 'objdump', 'nm', 'addr2line')
MARK = 0x5354414b
BELOW, ABOVE = 16, 96
YIELD_LINES = 256

# Code without register windows, floating point and tables of jumps, since data can't be read from code, and with nothing in delay
# slots, where the two instructions that take the place of one would have no room. What isn't used isn't linked. A function begins with its
# frame, where the condition codes are nobody's, so that it can be compared with the stack's end.
FLAGS = ['-m32', '-mcpu=v7', '-mflat', '-msoft-float', '-ffreestanding', '-std=c11', '-O2', '-gdwarf-5', '-Wall', '-Wextra',
         '-Wno-unused-parameter', '-nostdinc', '-fcallgraph-info=su',
         '-fno-delayed-branch', '-fno-jump-tables', '-fno-pic', '-fno-pie', '-fno-stack-protector', '-fno-common', '-ffixed-g5',
         '-fno-asynchronous-unwind-tables', '-fno-tree-loop-distribute-patterns', '-ffunction-sections', '-fdata-sections',
         '-fno-shrink-wrap', '-fno-schedule-insns', '-fno-schedule-insns2']

# Atomic loads and stores are one instruction, but in a program that updates words by atomic.c: there stores too have to be behind its locks, or
# an update that has begun would lose them. What is to be warned of was told before.
BEHIND_LOCKS = ['-fno-inline-atomics', '-w']
UPDATE = re.compile('__atomic_(fetch|exchange|compare)')

Options = namedtuple('Options', 'keep defines any_stack spread', defaults=(None, (), False, False))
HINTS = (
    (re.compile(r'fatal error: \S+: No such file'),
     "of the C library's headers there are assert.h, limits.h and string.h, and the compiler's own: stdint.h, stdbool.h, stddef.h, stdatomic.h .."),
    (re.compile(r'undefined reference to `__(atomic|sync)_'),
     'atomics are the __atomic_ ones of 1, 2, 4 and 8 bytes, as C11 has them; alewife.h has exchange and test_and_set besides'),
    (re.compile(r'undefined reference to `__\w*[sdt]f'), 'the machine has no floating point'),
    (re.compile(r'unplaced orphan section `\.t(bss|data)'), 'there are no variables of a thread: take an array with an element for each own_context()'),
    (re.compile('_Alignas.? specifiers cannot reduce alignment'), 'a variable with an array of EACH begins a line by itself: leave LINE away'),
    (re.compile(r'undefined reference to `program'), 'one of the files has to have void program(uint32_t context, uint32_t contexts)'),
)


class BuildError(Exception):
    """Why there is no image."""


class MissingTool(BuildError):
    """A tool that isn't on the path."""


def compiler():
    """The cross-compiler. All tools are looked for."""
    found = [name for name in COMPILERS if shutil.which(name)]
    if not found:
        raise MissingTool('there is no sparc64-linux-gnu-gcc; on Debian: apt-get install gcc-12-sparc64-linux-gnu')
    for tool in BINUTILS:
        if not shutil.which(f'sparc64-linux-gnu-{tool}'):
            raise MissingTool(f'there is no sparc64-linux-gnu-{tool}; on Debian: apt-get install binutils-sparc64-linux-gnu')
    return found[0]


def answered(words):
    """What a tool writes to standard output and to standard error. The second is why there is no image where it fails."""
    ran = subprocess.run([str(word) for word in words], stdout=subprocess.PIPE, stderr=subprocess.PIPE, text=True, errors='replace')
    if ran.returncode != 0:
        said = '\n'.join(line for line in ran.stderr.strip().splitlines() if not UNUSED.search(line))
        hints = [hint for pattern, hint in HINTS if pattern.search(said)]
        raise BuildError('\n'.join([f'{words[0]} refused it:', said, *hints]))
    return ran.stdout, ran.stderr


def called(words):
    """What a tool writes to standard output. What it says else is shown."""
    out, said = answered(words)
    if said:
        print(said.strip(), file=sys.stderr)
    return out


# ---- two loads for one, two stores for one


REGISTERS = [f'%{group}{number}' for group in 'goli' for number in range(8)]
DOUBLE = re.compile(r'\s*(ldd|std)\s+(?:\[(?P<from>[^]]+)\], *(?P<into>%\w+)|(?P<what>%\w+), *\[(?P<to>[^]]+)\])\s*')


def number_of(register):
    """A register's number, also of %sp and %fp."""
    return REGISTERS.index({'%sp': '%o6', '%fp': '%i6'}.get(register, register))


def second(address):
    """The address four bytes on, of a register, a register and a number, or a register and %lo. Another one is None."""
    if re.fullmatch(r'%\w+', address):
        return f'{address}+4'
    match = re.fullmatch(r'(%\w+)([+-]\d+)', address)
    if match:
        return f'{match[1]}{int(match[2]) + 4:+d}'
    match = re.fullmatch(r'(.*)\+%lo\((.*)\)', address)
    return f'{match[1]}+%lo({match[2]}+4)' if match else None


def without_doubles(line):
    """The lines for a line of assembly: a load or store of two registers becomes two, by way of %g5, which GCC is told to leave."""
    match = DOUBLE.fullmatch(line)
    if not match:
        return [line]
    address, even = (match['from'], match['into']) if match[1] == 'ldd' else (match['to'], match['what'])
    odd, before = REGISTERS[number_of(even) + 1], []
    if second(address) is None:
        before, address = [f'\tadd\t{", ".join(address.split("+"))}, %g5'], '%g5'
    if match[1] == 'std':
        return before + [f'\tst\t{even}, [{address}]', f'\tst\t{odd}, [{second(address)}]']
    loads = [f'\tld\t[{address}], {even}', f'\tld\t[{second(address)}], {odd}']
    based_on = number_of(re.match(r'%\w+', address)[0])
    return before + (loads[::-1] if based_on == number_of(even) else loads)


# ---- frames within the stack


FRAME = re.compile(r'\s*add\s+%sp, *(-\d+|%g\d), *%sp\s*')


def with_check(line):
    """The lines for a line of assembly: where a frame is made, the context traps if that is beyond its stack's end, which is in %g6."""
    return [line, '\tcmp\t%sp, %g6', '\ttcs\t16'] if FRAME.fullmatch(line) else [line]


# ---- compiling and linking


@dataclass
class Build:
    """A build under way: the compiler, a folder for what is made, the machine's sizes, the options, the calls that are found, flags that
    follow from these, and where variables lie, if not one behind another."""
    gcc: str
    folder: Path
    sizes: Sizes
    options: Options
    calls: stacks.Calls
    flags: list = field(default_factory=list)
    plan: placing.Plan | None = None

    def contexts(self):
        """How many contexts there are on all nodes."""
        return self.sizes.width * self.sizes.height * self.sizes.contexts

    def end(self):
        """The address behind shared data."""
        return SHARED + LINE_BYTES * self.sizes.width * self.sizes.height * self.sizes.lines

    def part(self):
        """The bytes of its node's home that a context has, as symbols and macros are given them; none where variables lie one behind another."""
        return {'part_bytes': LINE_BYTES * self.sizes.lines // self.sizes.contexts} if self.options.spread else {}

    def lowest(self, symbols):
        """The lowest address of each stack."""
        size = symbols['stack_size']
        for context in range(self.contexts()):
            yield SHARED + (context + 1) * self.plan.part - size if self.plan else self.end() - (context + 1) * size

    def yields_at_home(self):
        """Whether yield loads from lines of the node itself: it has two so far apart, stands at whole KiB, and variables aren't spread over the nodes."""
        return not self.options.spread and self.sizes.contexts > 1 and self.sizes.lines > YIELD_LINES and self.sizes.lines % YIELD_LINES == 0

    def stack_of(self, least):
        """The bytes of the smallest stack that has so many, as machine.ld makes them."""
        unit = LINE_BYTES if not self.yields_at_home() else 256 if least <= 256 else 512 if least <= 512 else 1024
        return -(-least // unit) * unit


def translated(build, file, made):
    """Compiles a source in C to assembly for this machine, and notes its calls."""
    headers = [word for folder in (RUNTIME / 'include', called([build.gcc, '-print-file-name=include']).strip()) for word in ('-isystem', folder)]
    sizes = [f'-DCONTEXTS_A_NODE={build.sizes.contexts}', f'-DCONTEXTS={build.contexts()}', f'-DLINES_A_NODE={build.sizes.lines}',
             f'-DYIELDS_AT_HOME={build.yields_at_home():d}', *(f'-D{name.upper()}={size}' for name, size in build.part().items())]
    called([build.gcc, *FLAGS, *build.flags, *headers, *sizes, *(f'-D{each}' for each in build.options.defines), f'-I{RUNTIME}', '-S', file, '-o', made])
    lines = (part for line in made.read_text().splitlines() for part in without_doubles(line))
    made.write_text(''.join(part + '\n' for line in lines for part in with_check(line)))
    build.calls.add(made.with_suffix('.ci').read_text(), made.stem)


def compiled(build, file, number):
    """The object file of a source in C or assembly."""
    assembly = build.folder / f'{number}-{file.stem}.s'
    made = assembly.with_suffix('.o')
    if not file.is_file():
        raise BuildError(f'there is no file {file}')
    if file.suffix == '.c':
        translated(build, file, assembly)
    elif file.suffix == '.s':
        assembly = file
    else:
        raise BuildError(f'{file} is neither C (.c) nor assembly (.s)')
    lines = ['-gdwarf-5'] if assembly == file else []
    called(['sparc64-linux-gnu-as', '-32', '-Av8', *lines, *(f'--defsym={name}={size}' for name, size in build.part().items()), assembly, '-o', made])
    return made


def all_compiled(build, files):
    """The object files of a program's sources, compiled again where they turn out to update words by atomic.c."""
    sources = [RUNTIME / 'start.s', RUNTIME / 'runtime.c', RUNTIME / 'atomic.c', *map(Path, files)]
    objects = [compiled(build, file, number) for number, file in enumerate(sources)]
    if build.flags or not any(UPDATE.match(name) for names in build.calls.called.values() for name in names):
        return objects
    build.flags, build.calls = BEHIND_LOCKS, stacks.Calls()
    return all_compiled(build, files)


UNUSED = re.compile(r"removing unused section '(\S+)' in file '(.*)'")
UNUSED_AT = 0x80000000


def planned(build, objects, unused):
    """Where the variables of object files lie by --spread, of which some sections aren't used. Refuses more than a context's part has room for."""
    found = [section for file in objects for section in placing.sections_of(file, called(['sparc64-linux-gnu-objdump', '-h', file]))]
    plan = placing.plan_of(build.sizes, [section for section in found if (section.name, str(section.file)) not in unused])
    if not plan.stack:
        raise BuildError(f'variables take {max(plan.taken)} bytes of a context\'s part, which has {plan.part}: give {plan.lines(BELOW + ABOVE)} lines a node')
    return plan


def linked(build, files):
    """The linked program. It is linked twice. The first time says what isn't used. The second time puts that at addresses of its own, for else
    the debugger's lines of it would be at addresses of the code; and by --spread it puts variables where they lie."""
    objects, made, script = all_compiled(build, files), build.folder / 'program.elf', build.folder / 'machine.ld'
    words = ['sparc64-linux-gnu-ld', '-m', 'elf32_sparc', '-z', 'noexecstack', '--orphan-handling=error', f'--defsym=shared_end={build.end()}',
             f'--defsym=stack_mark={MARK}', f'--defsym=contexts={build.contexts()}', f'--defsym=yields_at_home={build.yields_at_home():d}',
             *(f'--defsym={name}={size}' for name, size in build.part().items()), *objects, '-o', made]
    unused = UNUSED.findall(answered([*words, '--gc-sections', '--print-gc-sections', '-T', RUNTIME / 'machine.ld'])[1])
    text = (RUNTIME / 'machine.ld').read_text()
    if build.options.spread:
        build.plan = planned(build, objects, set(unused))
        text = placing.script_of(build.plan, text)
    named = ''.join(f'"{file}"({name}) ' for name, file in unused)
    script.write_text(text.replace('SECTIONS\n{\n', f'SECTIONS\n{{\n    .unused {UNUSED_AT:#x} : {{ {named}}}\n'))
    called([*words, '--unresolved-symbols=ignore-all', '-T', script])
    return made


def section(program, name, folder, *words):
    """The bytes of a section; none of one that isn't there. Words are further ones for objcopy."""
    made = Path(folder, 'section')
    called(['sparc64-linux-gnu-objcopy', '-O', 'binary', '-j', name, *words, program, made])
    return made.read_bytes()


ASSERTIONS = '.debug_assertions'
ASSERTED = re.compile(rb'(.{4})(.{4})([^\0]*)\0([^\0]*)\0', re.S)


def assertions_of(elf):
    """The assertions of a linked program, each as its place and its text, by the address of its trap: include/assert.h has them in a section of their own."""
    with tempfile.TemporaryDirectory() as folder:
        data = section(elf, ASSERTIONS, folder, '--set-section-flags', f'{ASSERTIONS}=alloc,load,readonly')
    rows = ((int.from_bytes(address, 'big'), int.from_bytes(line, 'big'), file.decode(errors='replace'), text.decode(errors='replace'))
            for address, line, file, text in ASSERTED.findall(data))
    return {address: (f'{Path(file).name}:{line}', f'assert({text})') for address, line, file, text in rows if address < UNUSED_AT}


def symbols_of(program):
    """The values of a program's symbols."""
    rows = (line.split() for line in called(['sparc64-linux-gnu-nm', program]).splitlines())
    return {row[-1]: int(row[0], 16) for row in rows if len(row) == 3}


def places_of(elf, addresses):
    """The place of each address in the sources: the line, and the lines of the calls that are inlined."""
    if not addresses:
        return {}
    text = called(['sparc64-linux-gnu-addr2line', '-a', '-f', '-s', '-i', '-e', elf, *addresses])
    places = {}
    for block in text.split('0x')[1:]:
        address, *pairs = block.split('\n')[:-1]
        lines = [f'{line.split(" ")[0]} ({function})' for function, line in zip(pairs[::2], pairs[1::2])]
        places[f'0x{address}'] = ' in '.join(lines)
    return places


GIVEN = ('alewife.h', 'each.h', 'locks.h', 'barriers.h', 'atomic.c', 'runtime.c', 'start.s')
ONE_TURN = ('load_word', 'store_word', 'exchange', 'test_and_set', 'print')


def short_place(place):
    """A place in the program's own sources: its line, and which given function is called there, if that is more than one turn."""
    parts = [part.partition(' (') for part in place.split(' in ')]
    own = next((at for at, (line, _, _) in enumerate(parts) if line.partition(':')[0] not in GIVEN), len(parts) - 1)
    called_there = parts[own - 1][2].rstrip(')') if own else ''
    return f'{called_there}(), {parts[own][0]}' if called_there and called_there not in ONE_TURN else parts[own][0]


def spelled(numbers):
    """Numbers in order, with ranges, as 0-3,7."""
    ranges = []
    for number in sorted(numbers):
        if ranges and number == ranges[-1][1] + 1:
            ranges[-1][1] = number
        else:
            ranges.append([number, number])
    return ','.join(f'{first}-{last}' if first < last else f'{first}' for first, last in ranges)


def told_standing(places):
    """Where contexts stand, by their places: a line for each short place, those of most contexts first."""
    found = {}
    for number, place in places.items():
        found.setdefault(short_place(place), []).append(number)
    for place, numbers in sorted(found.items(), key=lambda each: (-len(each[1]), min(each[1]))):
        yield f'{len(numbers)} {"is" if len(numbers) == 1 else "are"} {"in" if "()" in place else "at"} {place}: {spelled(numbers)}'


def check_stack(build, symbols):
    """Refuses stacks that are too small for the program's calls, unless the options say otherwise, and says where they aren't known."""
    depth, unknown = stacks.depth_of(build.calls, 'program')
    wanted, size, contexts = BELOW + depth + ABOVE, symbols['stack_size'], build.contexts()
    least = ' at least' if unknown else ''
    if wanted > size:
        room = symbols['data_end'] - SHARED + contexts * build.stack_of(wanted)
        lines = build.plan.lines(wanted) if build.plan else -(-room // (LINE_BYTES * build.sizes.width * build.sizes.height))
        said = f'stack {wanted} bytes a context{least}, there are {size}: give {lines} lines a node'
        if not build.options.any_stack or size < BELOW + ABOVE:
            raise BuildError(said + (', or say --any-stack' if size >= BELOW + ABOVE else ''))
        print(f'build: {said}', file=sys.stderr)
    elif unknown:
        print(f'build: stack {wanted} bytes a context{least}, there are {size}: {"; ".join(unknown)}', file=sys.stderr)


# ---- instructions


OPERATIONS = {*range(0x00, 0x09), 0x0A, 0x0B, 0x0C, *range(0x10, 0x19), 0x1C, 0x25, 0x26, 0x27, 0x38, 0x3A}
READ_Y, WRITE_Y = 0x28, 0x30
MEMORY = {0x00, 0x01, 0x02, 0x04, 0x05, 0x06, 0x09, 0x0A, 0x0D, 0x0F}


def is_known(word):
    """Whether the machine has the instruction of a word of the assembler's. Of UNIMP, which stands behind the call of a function that gives
    a structure, it has none; that one isn't run, and is let pass."""
    op, op3, is_immediate = word >> 30, word >> 19 & 63, word >> 13 & 1
    if op < 2:
        return op == 1 or word >> 22 & 7 in (0, 2, 4)
    if op == 2 and op3 == READ_Y:
        return word & 0x7ffff == 0
    if op == 2 and op3 == WRITE_Y:
        return word >> 25 & 31 == 0
    return op3 in (OPERATIONS if op == 2 else MEMORY) and (is_immediate or word >> 5 & 255 == 0)


def check_code(program, words):
    """Refuses the first word that is no instruction of the machine, with its place in the source."""
    if len(words) > MOST_WORDS:
        raise BuildError(f'the code has {len(words)} words; a machine takes at most {MOST_WORDS}')
    for number, word in enumerate(words):
        if not is_known(word):
            address = WORD * number
            place = called(['sparc64-linux-gnu-addr2line', '-f', '-s', '-e', program, hex(address)]).split()
            listing = called(['sparc64-linux-gnu-objdump', '-d', f'--start-address={address}', f'--stop-address={address + WORD}', program])
            raise BuildError(f'{place[1]}, in {place[0]}: the machine has no {" ".join(listing.splitlines()[-1].split()[5:])}')


# ---- the image


def lines_of(build, data, symbols):
    """The lines that aren't 0 at the start, by their numbers: those of data, and the mark under each stack."""
    bodies = (data[at:at + LINE_BYTES].ljust(LINE_BYTES, b'\0') for at in range(0, len(data), LINE_BYTES))
    lines = dict(enumerate(bodies))
    lines.update({(address - SHARED) // LINE_BYTES: struct.pack('>I', MARK).ljust(LINE_BYTES, b'\0') for address in build.lowest(symbols)})
    return {number: line for number, line in lines.items() if any(line)}


def image(sizes, code, lines, start):
    """The image of code, with the lines that aren't 0, and a start for each context."""
    starts = tuple((node, slot, start) for node in range(sizes.width * sizes.height) for slot in range(sizes.contexts))
    return Image(sizes, code, lines, starts).packed()


def build(files, sizes, options=Options()):
    """The image of a program. The options have a path at which the linked program is kept too."""
    gcc = compiler()
    if options.spread and sizes.lines % sizes.contexts:
        raise BuildError(f'--spread gives each context as many lines of its home: {sizes.lines} lines aren\'t {sizes.contexts} times as many')
    with tempfile.TemporaryDirectory() as folder:
        made = Build(gcc, Path(folder), sizes, options, stacks.Calls())
        program = linked(made, files)
        symbols = symbols_of(program)
        check_stack(made, symbols)
        code, data = section(program, '.text', folder), section(program, '.data', folder)
        check_code(program, [word for word, in struct.iter_unpack('>I', code)])
        whole = image(sizes, code, lines_of(made, data, symbols), symbols['start'])
        if options.keep:
            write_whole(Path(options.keep), program.read_bytes())
    return whole


def write_whole(path, data):
    """Writes a file whole, or not at all. A device isn't written, for the file would take its place."""
    if path.exists() and not path.is_file():
        raise BuildError(f"can't write {path}: it is there and is no file")
    real = Path(os.path.realpath(path))
    try:
        handle, name = tempfile.mkstemp(prefix=f'.{real.name}.', dir=real.parent)
    except OSError as error:
        raise BuildError(f"can't write to {path.parent}: {error.strerror}") from error
    try:
        with os.fdopen(handle, 'wb') as file:
            file.write(data)
        os.chmod(name, 0o644)
        os.replace(name, real)
    except OSError as error:
        os.unlink(name)
        raise BuildError(f"can't write {path}: {error.strerror}") from error
