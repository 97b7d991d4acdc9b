! Sixteen nodes read one word, whose home is node 0.
        .mesh   4,4
        set     0x40000000,%g1  ! the address of the word
        ld      [%g1],%g2
        ta      0
