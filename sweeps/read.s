! Each of 256 nodes reads one word, so that the home of its line comes to have 256 readers.
        .mesh 16,16
        set 0x40000000,%g1
        ld [%g1],%g2
        ta 0
