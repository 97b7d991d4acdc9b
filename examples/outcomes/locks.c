/* The locks of examples/c/alewife.h and examples/c/locks.h. In no schedule is a context inside beside another one, or waits for ever. Each goes
   in twice, so that it meets what it left behind; but three go in once by MCS, where twice would be some 900,000 places.
   Built for 2 by 1 nodes with 1 context and 64 lines with LOCK as TTAS, TAS, BACKOFF, TICKET, CLH or MCS.
   Built for 3 by 1 nodes with 1 context and 64 lines with LOCK as TTAS, TAS, BACKOFF, TICKET, CLH or MCS.
   Comes to 1 outcome, 0 traps, stuck no. */
#include "locks.h"
#include <assert.h>

enum { TTAS, TAS, BACKOFF, TICKET, CLH, MCS, TIMES = LOCK == MCS && CONTEXTS > 2 ? 1 : 2 };

LINE static struct lock lock;
static struct ticket_lock ticket;
static struct clh_lock clh;
static struct queue_lock mcs;
LINE static uint32_t inside;

/* The pauses of BACKOFF are short, since a search has places for each of their rounds. */
static void take(void)
{
    switch (LOCK) {
    case TTAS: acquire(&lock); break;
    case TAS: tas_acquire(&lock); break;
    case BACKOFF: backoff_acquire(&lock, 1, 2); break;
    case TICKET: ticket_acquire(&ticket); break;
    case CLH: clh_acquire(&clh); break;
    case MCS: queue_acquire(&mcs); break;
    }
}

static void give(void)
{
    switch (LOCK) {
    case TTAS: release(&lock); break;
    case TAS: tas_release(&lock); break;
    case BACKOFF: backoff_release(&lock); break;
    case TICKET: ticket_release(&ticket); break;
    case CLH: clh_release(&clh); break;
    case MCS: queue_release(&mcs); break;
    }
}

void program(uint32_t context, uint32_t contexts)
{
    for (uint32_t i = 0; i < TIMES; i++) {
        take();
        assert(exchange(&inside, 1) == 0);
        store_word(&inside, 0);
        give();
    }
}
