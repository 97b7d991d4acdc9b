! Accesses to one line, of node 27, that nobody is in the way of: what each takes is worked out by hand in docs/PAPERS.md.
! Contexts that start at reads or writes do so one after another, by their numbers; one at load or store comes behind all of them.
        .mesh   8,8
        .lines  1
        .start  18,0,writes
        .start  29,0,load
load:   mov     64,%o0
reads:  sll     %o0,6,%g3
loop:   subcc   %g3,1,%g3
        bg      loop
        nop
        set     0x400001b0,%g1
        ld      [%g1],%g2
        ta      0
store:  mov     64,%o0
writes: sll     %o0,6,%g3
again:  subcc   %g3,1,%g3
        bg      again
        nop
        set     0x400001b0,%g1
        st      %g0,[%g1]
        ta      0
