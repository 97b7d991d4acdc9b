/* Wrong for many nodes: a barrier of one count behind one lock, and one word on which all wait. On 16 nodes it lets all go on. On 64 a home
   has so many requests of one line that it answers nearly all with BUSY, which the nodes ask again at once, and the run comes to its limit. */
#include "../alewife.h"

enum { ROUNDS = 4 };

struct central_barrier {
    struct lock lock;
    uint32_t arrived;
    LINE uint32_t round;
};

LINE static struct central_barrier barrier;

static void wait_for_all_at_once(struct central_barrier *barrier, uint32_t contexts)
{
    acquire(&barrier->lock);
    uint32_t round = barrier->round;
    barrier->arrived++;
    if (barrier->arrived == contexts) {
        barrier->arrived = 0;
        store_word(&barrier->round, round + 1);
    }
    release(&barrier->lock);
    while (load_word(&barrier->round) == round)
        yield();
}

void program(uint32_t context, uint32_t contexts)
{
    for (uint32_t i = 0; i < ROUNDS; i++)
        wait_for_all_at_once(&barrier, contexts);
    print(barrier.round);
}
