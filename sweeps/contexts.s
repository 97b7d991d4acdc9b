! Each node loads 16 lines of its own from each home, once each, with so many turns from one load to the next. Its contexts share the homes: the
! first one of a node has each contexts-th home from its own node on, the second one the homes behind those. Nobody else wants a line.
        .mesh   8,8
        .contexts 1
        .lines  1024
        .equ    contexts,1
        mov     0,%g1
        mov     %o0,%g2
divide: cmp     %g2,contexts            ! %g1 is the node, and %g2 the slot
        bl      divided
        nop
        sub     %g2,contexts,%g2
        ba      divide
        add     %g1,1,%g1
divided:
        set     0x40000000,%l0
        sll     %g1,8,%l1
        add     %l0,%l1,%l0             ! the node's own lines of home 0
        set     0x4000,%l1              ! bytes of a home's lines
home:   add     %g2,%g1,%l2
        and     %l2,63,%l2
        umul    %l2,%l1,%l2
        add     %l2,%l0,%l2
        mov     16,%l3
line:   ld      [%l2],%g3
        add     %l2,16,%l2
        add     %g3,1,%g3               ! work
        subcc   %l3,1,%l3
        bne     line
        nop
        add     %g2,contexts,%g2
        cmp     %g2,64
        bl      home
        nop
        ta      0
