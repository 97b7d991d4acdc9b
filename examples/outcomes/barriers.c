/* The barriers of examples/c/alewife.h and examples/c/barriers.h. In no schedule does a context pass one before all have come to it, or waits for
   ever. Two and three come to it twice, so that some are in the second round while others still leave the first. Four come once: then the tree
   has a context between two others.
   Built for 2 by 1 nodes with 1 context and 64 lines with BARRIER as CENTRAL, TREE or DISSEMINATION.
   Built for 3 by 1 nodes with 1 context and 64 lines with BARRIER as CENTRAL, TREE or DISSEMINATION.
   Built for 4 by 1 nodes with 1 context and 64 lines with BARRIER as TREE or DISSEMINATION. Comes to 1 outcome, 0 traps, stuck no. */
#include "barriers.h"
#include <assert.h>

enum { CENTRAL, TREE, DISSEMINATION, ROUNDS = CONTEXTS > 3 ? 1 : 2 };

static struct central_barrier central;
static struct barrier tree;
static struct dissemination_barrier dissemination;
LINE static uint32_t came[CONTEXTS];

static void wait_here(uint32_t contexts)
{
    switch (BARRIER) {
    case CENTRAL: central_wait_for_all(&central, contexts); break;
    case TREE: wait_for_all(&tree, contexts); break;
    case DISSEMINATION: dissemination_wait_for_all(&dissemination, contexts); break;
    }
}

void program(uint32_t context, uint32_t contexts)
{
    for (uint32_t round = 1; round <= ROUNDS; round++) {
        store_word(&came[context], round);
        wait_here(contexts);
        for (uint32_t other = 0; other < contexts; other++)
            assert(other == context || load_word(&came[other]) >= round);
    }
}
