! Two nodes of two contexts each; slot 0 of node 0 and slot 1 of node 1 start, and the others are halted.
        .mesh 2,1
        .contexts 2
        .lines 2                ! lines 0 and 1 have home node 0, lines 2 and 3 have home node 1
        .equ    base,0x40000000
        .start  0,0,sum
        .start  1,1,number
sum:    set     base,%g1        ! two words: sethi and or
        ld      [%g1],%o0       ! 5, of line 0
        ld      [%g1+36],%g2    ! -3, of line 2
        add     %o0,%g2,%o0
        ta      1               ! print %o0
        ta      0               ! halt
number: ta      1               ! %o0 is the number of this context, 1 * 2 + 1
        mov     %o1,%o0         ! %o1 is how many contexts there are
        ta      1
        ta      0
        .shared 0
        .word   5
        .skip   32              ! 0 stands where nothing is written
        .word   -3              ! at base + 36
