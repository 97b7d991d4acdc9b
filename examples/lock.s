! Four nodes: each adds 1 to a shared count a hundred times, and holds a lock in another line meanwhile.
        .mesh 2,2
        set     0x40000000,%g1          ! the lock
        set     0x40000010,%g2          ! the count
        mov     100,%g3
take:   ldstub  [%g1],%g4               ! 0 where the lock was free
        tst     %g4
        bne     take
        nop
        ld      [%g2],%g5
        add     %g5,1,%g5
        st      %g5,[%g2]
        stb     %g0,[%g1]               ! free it
        subcc   %g3,1,%g3
        bne     take
        nop
        ta      0
