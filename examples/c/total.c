/* Each context adds its number to a total behind a lock. After a barrier the first prints it. */
#include "alewife.h"

LINE static struct lock lock;
LINE static uint32_t total;
static struct barrier barrier;

void program(uint32_t context, uint32_t contexts)
{
    acquire(&lock);
    total += context;
    release(&lock);
    wait_for_all(&barrier, contexts);
    if (context == 0)
        print(total);
}
