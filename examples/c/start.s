! Where each context begins, with its number in %o0 and how many there are in %o1. The stacks stand behind one another at the end of
! shared data, that of context 0 last, and grow down; the linker script has their size. The lowest word of each is a mark.
        .section .text.start,"ax"
        .global start
        .cfi_sections .debug_frame
        .cfi_startproc
        .cfi_undefined 15               ! nothing calls this, of which a debugger has to know
start:  mov     %o0,%g7                 ! for own_context
        .ifdef  part_bytes
        set     part_bytes,%g1          ! by build --spread each stack ends with the part of its context
        umul    %o0,%g1,%g2
        set     0x40000000+part_bytes,%g3
        add     %g3,%g2,%g2
        set     stack_size,%g1
        .else
        set     stack_size,%g1
        umul    %o0,%g1,%g2
        set     shared_end,%g3
        sub     %g3,%g2,%g2
        .endif
        sub     %g2,96,%sp              ! room for what the called function saves
        sub     %g2,%g1,%g2
        add     %g2,16,%g6              ! where a function's frame may begin at the lowest
        call    program
        nop
        ld      [%g6-16],%g1            ! behind the program the mark has to be there still
        set     stack_mark,%g2
        subcc   %g1,%g2,%g0
        tne     16
        ta      0
        .cfi_endproc

! The product of %o0 and %o1, which GCC calls where it isn't told of UMUL: the low word, and the high word in %o1.
        .global .umul
        .cfi_startproc
.umul:  umul    %o0,%o1,%o0
        retl
        rd      %y,%o1
        .cfi_endproc
