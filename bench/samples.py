"""Good inputs of every format, small ones: sources, and the images, traces, claims and checkpoints that a program makes of them."""
from dataclasses import dataclass
from pathlib import Path

EXAMPLES = Path(__file__).resolve().parent.parent / 'examples'
SOURCES = {
    **{name: (EXAMPLES / f'{name}.s').read_text() for name in ('print', 'crossing', 'lock')},
    'smallest': ' ta 0',
    'data': """        .mesh 3,1
        .contexts 2
        .lines 4
        .equ here,0x40000000
        .equ two,1+1
        .start 0,0,first
        .start 0,1,second
        .start 2,1,second
        .always 5
        .always two
        .shared 0x20
words:  .word 1,0xffffffff,-5,first
        .half 7,-2
        .byte 1,255,-128,two
        .align 8
        .skip 8
        .word words
        .text
first:  sethi   %hi(words),%g1
        or      %g1,%lo(words),%g1
        lduh    [%g1+16],%o0
        ta      1
        call    third
        ldsb    [%g1+20],%o0
second: set     here,%g1
        swap    [%g1+4],%o0
        ta      1
        ta      0
third:  ta      1
        jmpl    %o7+8,%g0
        umul    %o0,%o0,%o0
""",
    'spill': """        .mesh 3,1
        sethi   0x100000,%g1
        ld      [%g1],%o0
        ld      [%g1],%o0
        st      %o0,[%g1]
        ta      0
""",
    'always': """        .mesh 2,1
        .start 1,0,reader
        .start 0,0,writer
        .always 0
reader: set     0x40000000,%g1
        ld      [%g1],%o0
        ta      0
writer: set     0x40000000,%g1
        st      %o1,[%g1]
        ta      0
""",
    'wide': """        .mesh 9,1
        .lines 2
        .start 8,0,0
        .start 3,0,0
        set     0x40000040,%g1
again:  ldstub  [%g1+%o0],%g2
        cmp     %g2,0xff
        be      again
        clr     %g2
        sth     %o0,[%g1+10]
        ta      0
""",
    'arithmetic': """        mov     -1,%g1
        mov     3,%g2
        addcc   %g1,%g2,%g3
        addx    %g0,%g0,%o0
        ta      1
        smul    %g1,%g2,%g4
        rd      %y,%o0
        ta      1
        wr      %g2,5,%y
        xnorcc  %g1,%g4,%o0
        ta      1
        srl     %g1,28,%o0
        tvs     16
        ta      1
        sra     %g1,%g2,%l0
        subxcc  %l0,%g2,%i0
        ta      9
""",
    'unaligned': ' set 0x40000000,%g1\n ld [%g1+2],%o0\n ta 0\n',
    'endless': '.mesh 2,1\nagain:  ba again\n        add %g1,1,%g1\n',
    'four': """        .contexts 4
        .lines 8
        set     0x40000000,%g1
        sll     %o0,6,%g2
        add     %g1,%g2,%g1
        ld      [%g1],%g3
        st      %g3,[%g1+12]
        jmp     %g0+28
        nop
        ta      0
""",
}

WORKLOADS = ['1 1 2 0', '2 1 2 5', '2 2 1 7', '1 3 1 9', '12 1 1 3']

# The options of the runs that the samples are taken from. The limit keeps them small.
RUNS = [
    [],
    ['--seed', '3', '--limit', '60'],
    ['--seed', '9', '--pointers', '1', '--sets', '4', '--evict', '90'],
    ['--seed', '18446744073709551615', '--pointers', '8', '--evict', '255', '--limit', '25'],
    ['--cycles', '3', '--pointers', 'all', '--limit', '90'],
]
STAMPS = ['0', '5', '12', '4294967295']
MOST_BYTES = 4000


@dataclass(frozen=True)
class Sample:
    """An input, with its format and a name that says how it was made."""

    kind: str
    name: str
    data: bytes


def sources():
    return [Sample('source', name, text.encode()) for name, text in SOURCES.items()]


def images(answer):
    """The images of all sources and of a few numbers. `answer(words, data)` is what the program writes."""
    yield from (Sample('image', sample.name, answer(['asm'], sample.data)) for sample in sources())
    for numbers in WORKLOADS:
        width, height, size, seed = numbers.split()
        words = ['gen', '--width', width, '--height', height, '--size', size, '--seed', seed]
        yield Sample('image', f'workload {numbers}', answer(words, b''))


def runs(answer, kind):
    """The traces or claims of all images by a few schedules, the small ones."""
    for image in images(answer):
        for options in RUNS:
            limit = [] if '--limit' in options else ['--limit', '200']
            text = answer(['run', '--write', kind, *limit, *options], image.data)
            if 0 < len(text) <= MOST_BYTES:
                yield Sample(kind, f'{image.name} {" ".join(options)}'.strip(), text)


def checkpoints(answer):
    """The checkpoints of the traces at a few stamps, the small ones."""
    for trace in runs(answer, 'trace'):
        for stamp in STAMPS:
            text = answer(['save', '--at', stamp], trace.data)
            if len(text) <= MOST_BYTES:
                yield Sample('checkpoint', f'{trace.name} at {stamp}', text)


def samples(answer):
    """All samples by their format."""
    return {
        'source': sources(),
        'image': list(images(answer)),
        'trace': list(runs(answer, 'trace')),
        'claim': list(runs(answer, 'claim')),
        'checkpoint': list(checkpoints(answer)),
    }
