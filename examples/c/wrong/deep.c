/* Wrong: context 1 calls itself deeper than its stack reaches, and would write into that of context 2. It traps with tt 0x90 at the call that
   is one too many. */
#include "../alewife.h"

static struct barrier barrier;

static uint32_t __attribute__((noinline)) depth_of(uint32_t calls)
{
    volatile uint32_t own = 1;
    return calls == 0 ? 0 : depth_of(calls - 1) + own;
}

void program(uint32_t context, uint32_t contexts)
{
    wait_for_all(&barrier, contexts);
    print(context == 1 ? depth_of(DEPTH) : 0);
}
