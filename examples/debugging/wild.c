/* Wrong: an array with a place for each context but one. The last context's share lies where the limit is. */
#include "alewife.h"

struct shares {
    uint32_t of[CONTEXTS - 1];
    uint32_t limit;
};

LINE static volatile struct shares shares = {.limit = 100};
static struct barrier barrier;

static void put(uint32_t context, uint32_t share)
{
    shares.of[context] = share;
}

void program(uint32_t context, uint32_t contexts)
{
    put(context, 7 * context);
    wait_for_all(&barrier, contexts);
    if (context == 0)
        print(shares.limit);
}
