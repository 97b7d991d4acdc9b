/* A lock under contention: the first ACTIVE contexts each take it TIMES times, as soon as they can, and count behind it. The one that counts last
   tells context 0, which prints the count: it is their product. With TELLS as 0 it prints the count itself, and nobody waits for it. LOCK says
   which one: TTAS or MCS of alewife.h, or TAS, BACKOFF, TICKET or CLH of locks.h. */
#include "locks.h"

enum { TTAS, TAS, BACKOFF, TICKET, CLH, MCS, SHORTEST = 16, LONGEST = 4096 };

#ifndef LOCK
#define LOCK MCS
#endif
#ifndef ACTIVE
#define ACTIVE contexts
#endif
#ifndef TIMES
#define TIMES 8
#endif
#ifndef TELLS
#define TELLS 1
#endif

LINE static struct lock lock;
static struct ticket_lock ticket;
static struct clh_lock clh;
static struct queue_lock mcs;
LINE static uint32_t count;
LINE static uint32_t whole;

static void take(void)
{
    switch (LOCK) {
    case TTAS: acquire(&lock); break;
    case TAS: tas_acquire(&lock); break;
    case BACKOFF: backoff_acquire(&lock, SHORTEST, LONGEST); break;
    case TICKET: ticket_acquire(&ticket); break;
    case CLH: clh_acquire(&clh); break;
    case MCS: queue_acquire(&mcs); break;
    }
}

static void give(void)
{
    switch (LOCK) {
    case TTAS: release(&lock); break;
    case TAS: tas_release(&lock); break;
    case BACKOFF: backoff_release(&lock); break;
    case TICKET: ticket_release(&ticket); break;
    case CLH: clh_release(&clh); break;
    case MCS: queue_release(&mcs); break;
    }
}

static uint32_t counted(void)
{
    take();
    uint32_t own = ++count;
    give();
    return own;
}

static void say(uint32_t product)
{
    if (TELLS)
        store_word(&whole, product);
    else
        print(product);
}

void program(uint32_t context, uint32_t contexts)
{
    if (context >= ACTIVE)
        return;
    for (uint32_t i = 0; i < TIMES; i++)
        if (counted() == ACTIVE * TIMES)
            say(ACTIVE * TIMES);
    if (!TELLS || context > 0)
        return;
    while (!load_word(&whole))
        yield();
    print(load_word(&whole));
}
