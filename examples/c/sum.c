/* A sum in parallel: each context adds up its share and adds that to the total behind a lock. Behind a barrier all print the total. */
#include "alewife.h"

enum { COUNT = 100 };

LINE static struct lock lock;
LINE static uint32_t total;
static struct barrier barrier;

void program(uint32_t context, uint32_t contexts)
{
    uint32_t share = 0;
    for (uint32_t i = context; i < COUNT; i += contexts)
        share += i * i;
    acquire(&lock);
    total += share;
    release(&lock);
    wait_for_all(&barrier, contexts);
    print(total);
}
