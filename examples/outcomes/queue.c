/* The lock with a queue of alewife.h, which is handed on without compare-and-swap. In no schedule is a context inside beside another one, or waits
   for ever. Three contexts are enough for one to come in between while the queue is taken off and put back. A context that found somebody
   inside would trap with tt 0x83, as each assertion does that fails.
   Built for 3 by 1 nodes with 1 context and 32 lines. Comes to 1 outcome, 0 traps, stuck no. */
#include "alewife.h"
#include <assert.h>

static struct queue_lock lock;
LINE static uint32_t inside;

void program(uint32_t context, uint32_t contexts)
{
    queue_acquire(&lock);
    assert(exchange(&inside, 1) == 0);
    store_word(&inside, 0);
    queue_release(&lock);
}
