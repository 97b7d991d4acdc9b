! Two nodes. Each adds 1 to the same word three times.
        .mesh   2,1
        set     0x40000000,%g1  ! the address of count
        mov     3,%g3           ! how often it is still to add
again:  ld      [%g1],%g2
        add     %g2,1,%g2
        st      %g2,[%g1]
        subcc   %g3,1,%g3       ! one less, and compare with 0
        bne     again
        nop                     ! the delay slot of the branch
        ta      0
