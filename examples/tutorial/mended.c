/* The greatest of the contexts' numbers, of which each looks and stores while it holds a lock. */
#include "alewife.h"

LINE static uint32_t max;
LINE static struct lock lock;
static struct barrier barrier;

void program(uint32_t context, uint32_t contexts)
{
    uint32_t own = 10 + context;

    acquire(&lock);
    if (own > max)
        max = own;
    release(&lock);
    wait_for_all(&barrier, contexts);
    if (context == 0)
        print(max);
}
