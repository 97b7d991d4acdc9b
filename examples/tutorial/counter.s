! Two nodes. The processor of each adds 1 to the same word, as count++ in C does.
        .mesh   2,1
        set     0x40000000,%g1  ! the address of count
        ld      [%g1],%g2       ! load count into a register
        add     %g2,1,%g2       ! add 1 there
        st      %g2,[%g1]       ! store the sum to count
        ta      0               ! halt
