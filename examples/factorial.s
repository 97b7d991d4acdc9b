! prints 10 * 9 * .. * 1, which is 3628800, and halts
        mov     10,%g1
        mov     1,%o0
again:  umul    %o0,%g1,%o0
        subcc   %g1,1,%g1
        bne     again
        nop                     ! in the delay slot
        ta      1
        ta      0
