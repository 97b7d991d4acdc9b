#!/usr/bin/env python3
"""Writes the source of a program for `alewife outcomes`, by its kind and its numbers: bench/searches.py KIND NUMBER..

lock T R: T threads take a lock by LDSTUB R times each, and add 1 to a count behind it.
buffer T: T threads in a ring store into a word of their own, and load and print that of the next one.
private T R: the same, after R rounds of loads and stores in a line that no other thread has.
"""
import sys

LOCK = '''        .mesh   {threads},1
        set     0x40000000,%g1          ! the lock
        set     0x40000010,%g2          ! the count
        mov     {rounds},%g3
take:   ldstub  [%g1],%g4
        tst     %g4
        bne     take
        nop
        ld      [%g2],%g5
        add     %g5,1,%g5
        st      %g5,[%g2]
        stb     %g0,[%g1]
        subcc   %g3,1,%g3
        bne     take
        nop
        ta      0
'''
RING = '''        .mesh   {threads},1
        .lines  2
        set     0x40000000,%g1          ! a line of words for each thread, the private lines behind them
        sll     %o0,4,%g2
        add     %g1,%g2,%g2             ! my word
        add     %o0,1,%g3
        cmp     %g3,{threads}
        be,a    wrapped
        mov     0,%g3
wrapped: sll    %g3,4,%g3
        add     %g1,%g3,%g3             ! the next one's
{work}        mov     1,%g4
        st      %g4,[%g2]
        ld      [%g3],%o0
        ta      1
        ta      0
'''
WORK = '''        mov     {rounds},%g5
work:   ld      [%g2+{beyond}],%g4
        add     %g4,1,%g4
        st      %g4,[%g2+{beyond}]
        subcc   %g5,1,%g5
        bne     work
        nop
'''


def lock(threads, rounds):
    """Threads that count behind a lock, some rounds each."""
    return LOCK.format(threads=threads, rounds=rounds)


def buffer(threads):
    """Threads in a ring that each store and then load."""
    return RING.format(threads=threads, work='')


def private(threads, rounds):
    """The same behind some rounds of private work."""
    return RING.format(threads=threads, work=WORK.format(rounds=rounds, beyond=16 * threads))


KINDS = {'lock': lock, 'buffer': buffer, 'private': private}

if __name__ == '__main__':
    try:
        sys.stdout.write(KINDS[sys.argv[1]](*map(int, sys.argv[2:])))
    except (IndexError, KeyError, TypeError, ValueError):
        sys.exit(__doc__.strip())
