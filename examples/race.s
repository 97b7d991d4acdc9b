! Two nodes add 1 to one word without a lock, node 1 a little later. Node 0 waits until node 1 has done so, and prints
! the word: 2, or 1 where both loaded it before either stored it.
        .mesh   2,1
        .start  0,0,first
        .start  1,0,second
first:  set     0x40000000,%g1          ! the word
        set     0x40000010,%g2          ! whether node 1 is done
        ld      [%g1],%g3
        add     %g3,1,%g3
        st      %g3,[%g1]
wait:   ld      [%g2],%g4
        tst     %g4
        be      wait
        nop
        ld      [%g1],%o0
        ta      1                       ! print the word
        ta      0
second: set     0x40000000,%g1
        set     0x40000010,%g2
        mov     3,%g4
later:  subcc   %g4,1,%g4
        bne     later
        nop
        ld      [%g1],%g3
        add     %g3,1,%g3
        st      %g3,[%g1]
        st      %g1,[%g2]
        ta      0
