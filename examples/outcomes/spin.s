! A spin lock with a count: three contexts each take the lock by LDSTUB, add 1 to the count by a load and a store, and free the lock.
! Each schedule leaves 3 in the count. Without the lock it could be 1, 2 or 3.
! Comes to 1 outcome, 0 traps, stuck no.
        .mesh   3,1
        set     0x40000000,%g1          ! the lock
        set     0x40000010,%g2          ! the count
take:   ldstub  [%g1],%g4               ! 0 where the lock was free
        tst     %g4
        bne     take
        nop
        ld      [%g2],%g5
        add     %g5,1,%g5
        st      %g5,[%g2]
        stb     %g0,[%g1]
        ta      0
