! Each of the first contexts adds 1 to a word of its own 32 times. Its line holds the words of so many of them, 1, 2 or 4; the last node is the
! home of the first line, the one before it that of the second, so that nobody is the home of a line that is its own alone.
        .mesh   4,4
        .lines  1
        .equ    last,15
        .equ    contexts,16
        .equ    shift,2
        .equ    mask,3
        cmp     %o0,contexts
        bge     done
        srl     %o0,shift,%g1           ! the number of the line
        mov     last,%g2
        sub     %g2,%g1,%g1
        sll     %g1,4,%g1
        set     0x40000000,%g2
        add     %g1,%g2,%g1
        and     %o0,mask,%g2            ! the word in it
        sll     %g2,2,%g2
        add     %g1,%g2,%g1
        mov     32,%g3
again:  ld      [%g1],%g2
        add     %g2,1,%g2
        st      %g2,[%g1]
        subcc   %g3,1,%g3
        bne     again
        nop
done:   ta      0
