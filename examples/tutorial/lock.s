! Two nodes. Each adds 1 to count while it holds a lock.
        .mesh   2,1
        set     0x40000000,%g1  ! the address of count
        set     0x40000010,%g3  ! the address of the lock: 0 while it is free
take:   ldstub  [%g3],%g4       ! load the lock and store 255 to it, in one turn
        tst     %g4
        bne     take            ! it wasn't free: try again
        nop                     ! the delay slot of the branch
        ld      [%g1],%g2
        add     %g2,1,%g2
        st      %g2,[%g1]
        stb     %g0,[%g3]       ! free the lock: %g0 is always 0
        ta      0
