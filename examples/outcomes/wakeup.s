! Wrong: a wake-up that is lost. Context 0 finds that nothing is ready, clears the bell, and waits for it. Context 1 makes it ready and
! rings the bell. Where it does both between the look and the clearing, context 0 waits for ever. Right with the bell cleared first.
! Context 0 prints 1 where it found that all was ready, and 0 where the bell woke it.
! Comes to 2 outcomes, 0 traps, stuck yes.
        .mesh   2,1
        .start  0,0,waits
        .start  1,0,rings
        .equ    ready,0x40000000
        .equ    bell,0x40000010
waits:  set     ready,%g1
        set     bell,%g2
        ld      [%g1],%o0
        tst     %o0
        bne     done
        nop
        st      %g0,[%g2]
sleep:  ld      [%g2],%g3
        tst     %g3
        be      sleep
        nop
done:   ta      1
        ta      0
rings:  set     ready,%g1
        set     bell,%g2
        mov     1,%g3
        st      %g3,[%g1]
        st      %g3,[%g2]
        ta      0
