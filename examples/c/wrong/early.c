/* Wrong: the sum of sum.c without its barrier. The lock keeps the total whole, but a context prints what is there when it comes: the
   shares of those that were before it. Each run is coherent, and another order of turns prints other words. */
#include "../alewife.h"

enum { COUNT = 100 };

LINE static struct lock lock;
LINE static uint32_t total;

void program(uint32_t context, uint32_t contexts)
{
    uint32_t share = 0;
    for (uint32_t i = context; i < COUNT; i += contexts)
        share += i * i;
    acquire(&lock);
    total += share;
    release(&lock);
    print(total);
}
