! prints 7 and halts
        mov     7,%o0
        ta      1               ! print %o0
        ta      0               ! halt
