! Two nodes add 1 four times each to a word of their own. Both words are in line 0.
        .mesh   2,1
        set     0x40000000,%g1
        sll     %o0,2,%g2       ! the word of this context
        mov     4,%g3
again:  ld      [%g1+%g2],%g4
        add     %g4,1,%g4
        st      %g4,[%g1+%g2]
        subcc   %g3,1,%g3
        bne     again
        nop
        ta      0
