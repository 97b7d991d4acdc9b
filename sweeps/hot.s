! Each node adds 1 to one word 50 times, without a lock: all read and write one line.
        .mesh 16,16
        set 0x40000000,%g1
        mov 50,%g3
again:  ld [%g1],%g2
        add %g2,1,%g2
        st %g2,[%g1]
        subcc %g3,1,%g3
        bne again
        nop
        ta 0
