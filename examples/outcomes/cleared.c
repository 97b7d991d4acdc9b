/* Wrong: a barrier whose last context opens the round and then clears the count. A context of the next round may come between the two: its
   arrival is lost, and all wait for one more that never comes.
   Built for 2 by 1 nodes with 1 context and 32 lines. Comes to 1 outcome, 0 traps, stuck yes. */
#include "alewife.h"

enum { ROUNDS = 2 };

LINE static uint32_t arrived;
LINE static uint32_t round;

/* Waits for all in a round, of which the number is one more than that of the last one. */
static void wait_in(uint32_t number, uint32_t contexts)
{
    static LINE struct lock lock;
    acquire(&lock);
    uint32_t count = load_word(&arrived) + 1;
    store_word(&arrived, count);
    release(&lock);
    if (count == contexts) {
        store_word(&round, number);
        store_word(&arrived, 0);
    }
    while (load_word(&round) != number)
        yield();
}

void program(uint32_t context, uint32_t contexts)
{
    for (uint32_t number = 1; number <= ROUNDS; number++)
        wait_in(number, contexts);
}
