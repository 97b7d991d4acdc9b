/* Rounds of a barrier: in each round a context stores the round's number, waits for all, and looks what another one has stored, in each round
   the next one. It prints how often that was the number of an earlier round, which is never. BARRIER says which one: TREE of alewife.h, or
   CENTRAL or DISSEMINATION of barriers.h. With LOOKS as 0 nothing is stored and looked at, so that contexts only wait. */
#include "barriers.h"

enum { CENTRAL, TREE, DISSEMINATION };

#ifndef BARRIER
#define BARRIER TREE
#endif
#ifndef ROUNDS
#define ROUNDS 8
#endif
#ifndef LOOKS
#define LOOKS 1
#endif

static struct central_barrier central;
static struct barrier tree;
static struct dissemination_barrier dissemination;
static struct {
    LINE uint32_t round;
} EACH(came);

static void wait_here(uint32_t contexts)
{
    switch (BARRIER) {
    case CENTRAL: central_wait_for_all(&central, contexts); break;
    case TREE: wait_for_all(&tree, contexts); break;
    case DISSEMINATION: dissemination_wait_for_all(&dissemination, contexts); break;
    }
}

static uint32_t is_early(uint32_t other, uint32_t round)
{
    return load_word(&AT(came, other).round) < round;
}

void program(uint32_t context, uint32_t contexts)
{
    uint32_t early = 0, other = context;
    for (uint32_t round = 1; round <= ROUNDS; round++) {
        if (LOOKS)
            store_word(&AT(came, context).round, round);
        wait_here(contexts);
        other = other + 1 < contexts ? other + 1 : 0;
        if (LOOKS)
            early += is_early(other, round);
    }
    print(early);
}
