! A ticket lock: three contexts each take the next ticket, which a small lock makes one step, and wait until it is served. Inside a
! context prints its ticket. Each order of the three is an outcome, and no schedule lets two inside at once.
! Comes to 6 outcomes, 0 traps, stuck no.
        .mesh   3,1
        .lines  2
        .equ    next,16
        .equ    served,32
        .equ    inside,48
        set     0x40000000,%g1          ! the small lock
        mov     1,%g2
take:   ldstub  [%g1],%l0
        tst     %l0
        bne     take
        nop
        ld      [%g1+next],%o0          ! my ticket
        add     %o0,1,%l1
        st      %l1,[%g1+next]
        stb     %g0,[%g1]
wait:   ld      [%g1+served],%l2
        cmp     %l2,%o0
        bne     wait
        nop
        swap    [%g1+inside],%g2
        tst     %g2
        tne     3                       ! somebody is inside
        ta      1                       ! print the ticket
        st      %g0,[%g1+inside]
        st      %l1,[%g1+served]
        ta      0
