/* Wrong: Peterson's lock with its two stores exchanged, as in exchanged.s. Who has given the turn and not yet raised a flag isn't seen.
   Built for 2 by 1 nodes with 1 context and 32 lines. Comes to 1 outcome, 2 traps, stuck no. */
#include "alewife.h"
#include <assert.h>

LINE static uint32_t wants[2];
LINE static uint32_t turn;
LINE static uint32_t inside;

void program(uint32_t context, uint32_t contexts)
{
    uint32_t other = 1 - context;
    store_word(&turn, other);
    store_word(&wants[context], 1);
    while (load_word(&wants[other]) && load_word(&turn) == other)
        ;
    assert(exchange(&inside, 1) == 0);
    store_word(&inside, 0);
    store_word(&wants[context], 0);
}
