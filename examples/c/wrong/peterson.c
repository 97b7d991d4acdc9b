/* Wrong: Peterson's lock for two contexts, with its two stores in the wrong order. A context that has stored the turn and not yet its flag is
   not seen by the other one, which stores the turn too, finds no flag, and goes in. The first then finds that the turn is its own, and goes
   in beside it. Right where the flag is stored first. */
#include "../alewife.h"

enum { ROUNDS = 8, BAD = 0xbad };

struct flag {
    LINE uint32_t is_up;
};

static struct flag flags[2];
LINE static uint32_t turn;
LINE static uint32_t inside;

static void enter(uint32_t me)
{
    store_word(&turn, 1 - me);
    store_word(&flags[me].is_up, 1);
    while (load_word(&flags[1 - me].is_up) && load_word(&turn) == 1 - me)
        yield();
}

void program(uint32_t me, uint32_t contexts)
{
    for (uint32_t i = 0; i < ROUNDS; i++) {
        enter(me);
        if (exchange(&inside, 1))
            print(BAD);
        yield();
        store_word(&inside, 0);
        store_word(&flags[me].is_up, 0);
    }
}
