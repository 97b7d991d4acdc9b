/* Wrong: a lock with tickets, of which one is drawn by a load and a store. Two contexts may draw the same one. Then both are inside, or one has
   been served when the other looks, which waits for a ticket that is gone.
   Built for 2 by 1 nodes with 1 context and 32 lines. Comes to 1 outcome, 2 traps, stuck yes. */
#include "alewife.h"
#include <assert.h>

LINE static uint32_t next;
LINE static uint32_t served;
LINE static uint32_t inside;

void program(uint32_t context, uint32_t contexts)
{
    uint32_t own = load_word(&next);
    store_word(&next, own + 1);
    while (load_word(&served) != own)
        ;
    assert(exchange(&inside, 1) == 0);
    store_word(&inside, 0);
    store_word(&served, own + 1);
}
