/* Arrays with an element for each context, which `build --spread` lays at the homes of the contexts' nodes. */
#ifndef EACH_H
#define EACH_H

#include <stdint.h>

/* EACH(name) is the last word of the declaration of such an array, and AT(name, context) the element of a context. The elements lie one behind
   another. By `build --spread` the declaration is of one element, of which each context has one as far behind that of the one before it as
   PART_BYTES says; the compiler isn't told that they belong together, for it would take the others to be beyond the end.

   ONE_AND_EACH(name) has one element more, which is no context's: AT_NUMBER(name, 0). That of a context has the next number. */
#ifdef PART_BYTES
#define EACH(name) name __attribute__((aligned(32)))
#define AT(name, context) (*(__typeof__(name) *)part_of((void *)&(name), context))
static inline void *part_of(void *first, uint32_t context)
{
    __asm__("" : "+r"(first));
    return (uint8_t *)first + context * PART_BYTES;
}
#define ONE_AND_EACH(name) name[2] __attribute__((aligned(32)))
#define AT_NUMBER(name, number) (*((number) == 0 ? &(name)[0] : &AT((name)[1], (number) - 1)))
#else
#define EACH(name) name[CONTEXTS]
#define AT(name, context) ((name)[context])
#define ONE_AND_EACH(name) name[CONTEXTS + 1]
#define AT_NUMBER(name, number) ((name)[number])
#endif

#endif
