! Two nodes: each stores 1 into a word of its own line, then loads and prints the other's word.
! On one memory, whatever the order of turns, they can't both print 0.
        .mesh 2,1
        set     0x40000000,%g1          ! a line whose home is node 0
        set     0x40000010,%g2          ! a line whose home is node 1
        mov     1,%g3
        tst     %o0                     ! the number of this context
        bne     other
        nop
        st      %g3,[%g1]
        ld      [%g2],%o0
        ta      1                       ! print %o0
        ta      0                       ! halt
other:  st      %g3,[%g2]
        ld      [%g1],%o0
        ta      1
        ta      0
