! Prints 73, which is 1 + 8 + 64: the delay slots that are done, and those that are annulled.
        mov     0,%o0
        ba      one
        add     %o0,1,%o0       ! done
        add     %o0,2,%o0       ! jumped over
one:    ba,a    two
        add     %o0,4,%o0       ! annulled: ba,a always annuls
two:    cmp     %o0,1
        be,a    three
        add     %o0,8,%o0       ! done: taken
        add     %o0,16,%o0      ! jumped over
three:  bne,a   four
        add     %o0,32,%o0      ! annulled: not taken
        add     %o0,64,%o0
four:   ta      1
        ta      0
