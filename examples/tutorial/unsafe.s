! Two nodes. Each takes a lock by a load and a store, adds 1 to count, and frees the lock.
        .mesh   2,1
        set     0x40000000,%g1  ! the address of count
        set     0x40000010,%g3  ! the address of the lock: 0 while it is free
        mov     1,%g5
take:   ldub    [%g3],%g4       ! load the lock
        tst     %g4
        bne     take
        nop
        stb     %g5,[%g3]       ! and store 1 to it, some turns later
        ld      [%g1],%g2
        add     %g2,1,%g2
        st      %g2,[%g1]
        stb     %g0,[%g3]       ! free the lock
        ta      0
