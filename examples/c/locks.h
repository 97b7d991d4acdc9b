/* Locks of the literature, beside the two of alewife.h: `acquire` (test-and-test-and-set) and `queue_acquire` (MCS).

   A program that only wants a lock takes one of those two. These are here to be compared with them: examples/c/locks.c runs each. */
#ifndef LOCKS_H
#define LOCKS_H

#include "alewife.h"

/* Test-and-set: waits for a lock by trying again, without a look before a try. Each try takes the line from all others, also from the owner, who
   wants it for the release. */
static inline void tas_acquire(struct lock *lock)
{
    while (exchange(&lock->taken, 1))
        yield();
}

/* A lock that was taken by tas_acquire or backoff_acquire may be released by release too: these names are for who reads the program. */
static inline void tas_release(struct lock *lock)
{
    release(lock);
}

/* Runs so many times round a loop of three turns that touches no memory. */
static inline void pause_for(uint32_t rounds)
{
    for (; rounds; rounds--)
        __asm__ volatile("");
}

/* Test-and-set with exponential backoff (Anderson 1990): who finds the lock taken pauses before the next try, twice as long each time, from a
   shortest pause of a round or more to a longest one. The more want the lock, the longer the longest has to be. Nobody is promised a turn. */
static inline void backoff_acquire(struct lock *lock, uint32_t shortest, uint32_t longest)
{
    for (uint32_t pause = shortest; exchange(&lock->taken, 1); pause = 2 * pause < longest ? 2 * pause : longest) {
        pause_for(pause);
        yield();
    }
}

static inline void backoff_release(struct lock *lock)
{
    release(lock);
}

/* A ticket lock (the ticket algorithm, Reed and Kanodia 1979; as a lock, Mellor-Crummey and Scott 1991): each draws the next ticket, and the
   lock is given in the order of tickets. The machine has no fetch-and-add, so a ticket is drawn behind a test-and-test-and-set: the order is that
   in which contexts come through this one, and the most of the cost is there. */
struct ticket_lock {
    LINE struct lock drawing;
    LINE uint32_t next;
    LINE uint32_t served;
};

/* Waits for the lock, and takes it. */
static inline void ticket_acquire(struct ticket_lock *lock)
{
    acquire(&lock->drawing);
    uint32_t ticket = lock->next++;
    release(&lock->drawing);
    while (load_word(&lock->served) != ticket)
        yield();
}

/* Gives the lock to the next ticket, drawn or not. */
static inline void ticket_release(struct ticket_lock *lock)
{
    store_word(&lock->served, load_word(&lock->served) + 1);
}

/* CLH (Craig 1993; Magnusson, Landin and Hagersten 1994): a queue in which nobody knows who is behind. Each context comes with a line, and waits
   on the line of the one before it. That line is its own from then on, since nobody else looks there any more. There is a line more than
   contexts, line 0, in which nobody waits. It takes two lines for each context. */
struct clh_lock {
    LINE uint32_t last;
    struct {
        LINE uint32_t waits;
    } ONE_AND_EACH(lines);
    struct {
        LINE uint32_t moved;
        uint32_t before;
    } EACH(of);
};

/* The number of a context's line. At first it is one more than that of the context, and `moved` is by how much it is more by now. */
static inline uint32_t clh_line(const struct clh_lock *lock, uint32_t context)
{
    return context + 1 + AT(lock->of, context).moved;
}

/* Waits for the lock, and takes it. */
static inline void clh_acquire(struct clh_lock *lock)
{
    uint32_t context = own_context(), line = clh_line(lock, context);
    store_word(&AT_NUMBER(lock->lines, line).waits, 1);
    uint32_t before = exchange(&lock->last, line);
    AT(lock->of, context).before = before;
    while (load_word(&AT_NUMBER(lock->lines, before).waits))
        yield();
}

/* Gives the lock to the one behind, if there is one, and takes over the line of the one before. */
static inline void clh_release(struct clh_lock *lock)
{
    uint32_t context = own_context(), line = clh_line(lock, context);
    AT(lock->of, context).moved = AT(lock->of, context).before - context - 1;
    store_word(&AT_NUMBER(lock->lines, line).waits, 0);
}

#endif
