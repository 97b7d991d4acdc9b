/* Wrong: contexts count in one word without a lock. Where two load it before either stores it, one step is lost. */
#include "alewife.h"

LINE static volatile uint32_t count;
static struct barrier barrier;

void program(uint32_t context, uint32_t contexts)
{
    for (int i = 0; i < 3; i++)
        count++;
    wait_for_all(&barrier, contexts);
    if (context == 0)
        print(count);
}
