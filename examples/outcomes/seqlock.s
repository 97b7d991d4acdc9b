! A seqlock: context 0 writes 1 into two words, and then 2, each time with an odd number in `sequence` meanwhile. Context 1 loads the
! number, the two words and the number again, and begins anew where the number is odd or another one. The two words that it takes are
! the same in each schedule, else it would trap; it prints what they are: 0, 1 or 2.
! Comes to 3 outcomes, 0 traps, stuck no.
        .mesh   2,1
        .lines  2
        .start  0,0,writes
        .start  1,0,reads
        .equ    sequence,0x40000000
        .equ    one,16
        .equ    other,32
writes: set     sequence,%g1
        mov     0,%g2
        mov     0,%g3
again:  add     %g2,1,%g2
        st      %g2,[%g1]               ! odd
        add     %g3,1,%g3
        st      %g3,[%g1+one]
        st      %g3,[%g1+other]
        add     %g2,1,%g2
        st      %g2,[%g1]               ! even
        cmp     %g3,2
        bne     again
        nop
        ta      0
reads:  set     sequence,%g1
look:   ld      [%g1],%g2
        andcc   %g2,1,%g0
        bne     look
        nop
        ld      [%g1+one],%o0
        ld      [%g1+other],%g3
        ld      [%g1],%g4
        cmp     %g4,%g2
        bne     look
        nop
        cmp     %o0,%g3
        tne     3                       ! the words are of two writes
        ta      1
        ta      0
