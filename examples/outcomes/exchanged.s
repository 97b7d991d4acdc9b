! Wrong: Peterson's lock of peterson.s with its two stores exchanged. A context that has given the turn and not yet raised its flag
! isn't seen by the other one, which gives the turn too, finds no flag, and goes in. The first then finds that the turn is its own,
! and goes in beside it. Of the seeds 0 to 3,000 one meets this, 2878. The search does at once: each context traps in some schedule.
! Comes to 2 outcomes, 2 traps, stuck no.
        .mesh   2,1
        .lines  2
        .equ    turn,16
        .equ    inside,32
        set     0x40000000,%g1          ! the flags, a word each
        sll     %o0,2,%g2
        add     %g1,%g2,%g2             ! my flag
        xor     %g2,4,%g3               ! the other's
        xor     %o0,1,%g4               ! the other
        mov     1,%g5
        st      %g4,[%g1+turn]
        st      %g5,[%g2]               ! too late
wait:   ld      [%g3],%l0
        tst     %l0
        be      enter
        nop
        ld      [%g1+turn],%l0
        cmp     %l0,%g4
        be      wait
        nop
enter:  mov     1,%l1
        swap    [%g1+inside],%l1
        tst     %l1
        tne     3                       ! somebody is inside
        st      %g0,[%g1+inside]
        st      %g0,[%g2]
        ta      0
