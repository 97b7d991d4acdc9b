/* Where what is asserted doesn't hold, the context traps with tt 0x83, in one turn. Which assertion that is stands in the linked program and not in
   the image: the section .debug_assertions has the trap's address, the line, the file's name and the text, of each trap. */
#ifndef ASSERTION_TEXT
#define ASSERTION_TEXT(text) #text
#define ASSERTION_TEXT_OF(text) ASSERTION_TEXT(text)
#define static_assert _Static_assert
#endif

#undef assert
#ifdef NDEBUG
#define assert(holds) ((void)0)
#else
/* The first of the two has memory written before the trap. The second has no operands, so that a % in the text is one. */
#define assert(holds) ((holds) ? (void)0 : __extension__({ \
    __asm__ volatile("" : : : "memory"); \
    __asm__ volatile("0:\tta 3\n\t.pushsection .debug_assertions,\"\",@progbits\n\t.uaword 0b," ASSERTION_TEXT_OF(__LINE__) "\n" \
                     "\t.asciz " ASSERTION_TEXT_OF(__FILE__) "," ASSERTION_TEXT(#holds) "\n\t.popsection"); \
    __builtin_unreachable(); }))
#endif
