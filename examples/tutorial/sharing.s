! Four nodes. Each adds 1 to a word of its own, ten times. The four words are one cache line.
        .mesh   2,2
        set     0x40000000,%g1  ! the address of the first word
        sll     %o0,2,%g2       ! %o0 is the number of this context, and 4 times that is its word's place
        mov     10,%g3          ! how often it is still to add
again:  ld      [%g1+%g2],%g4
        add     %g4,1,%g4
        st      %g4,[%g1+%g2]
        subcc   %g3,1,%g3
        bne     again
        nop
        ta      0
