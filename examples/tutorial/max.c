/* Each context has a number. The greatest of them is wanted: who has a greater one than there is stores it. */
#include "alewife.h"

LINE static uint32_t max;
static struct barrier barrier;

void program(uint32_t context, uint32_t contexts)
{
    uint32_t own = 10 + context;

    if (own > max)
        max = own;
    wait_for_all(&barrier, contexts);
    if (context == 0)
        print(max);
}
