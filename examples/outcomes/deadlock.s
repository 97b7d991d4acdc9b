! Wrong: two locks that two contexts take in two orders. Where each has its first lock, each waits for the other's for ever. A run then
! comes to its limit, as a slow one does too. The search tells the two apart: from some place no end can be reached.
! Comes to 1 outcome, 0 traps, stuck yes.
        .mesh   2,1
        .start  0,0,first
        .start  1,0,second
first:  set     0x40000000,%g1          ! the lock that is taken first
        set     0x40000010,%g2          ! the lock that is taken behind it
        ba,a    one
second: set     0x40000010,%g1
        set     0x40000000,%g2
one:    ldstub  [%g1],%g3
        tst     %g3
        bne     one
        nop
two:    ldstub  [%g2],%g3
        tst     %g3
        bne     two
        nop
        stb     %g0,[%g2]
        stb     %g0,[%g1]
        ta      0
