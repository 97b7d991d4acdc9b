! Peterson's lock for two contexts, each on a node of its own. A context raises its flag, gives the turn to the other one, and waits
! while the other's flag is up and the turn is the other's. `inside` says whether somebody is inside; a context that finds somebody
! there traps with tt 0x83. No schedule lets both inside at once. What differs at the end is who gave the turn last.
! Comes to 2 outcomes, 0 traps, stuck no.
        .mesh   2,1
        .lines  2
        .equ    turn,16
        .equ    inside,32
        set     0x40000000,%g1          ! the flags, a word each
        sll     %o0,2,%g2
        add     %g1,%g2,%g2             ! my flag
        xor     %g2,4,%g3               ! the other's
        xor     %o0,1,%g4               ! the other
        mov     1,%g5
        st      %g5,[%g2]
        st      %g4,[%g1+turn]
wait:   ld      [%g3],%l0
        tst     %l0
        be      enter
        nop
        ld      [%g1+turn],%l0
        cmp     %l0,%g4
        be      wait
        nop
enter:  mov     1,%l1
        swap    [%g1+inside],%l1
        tst     %l1
        tne     3                       ! somebody is inside
        st      %g0,[%g1+inside]
        st      %g0,[%g2]
        ta      0
