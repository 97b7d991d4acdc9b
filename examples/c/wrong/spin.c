/* Wrong on a node with two contexts: context 0 waits for a word that context 1 sets, and doesn't give way. Once it has a copy of the word
   it never misses again, and a context gives way only where it misses, so context 1 doesn't get another turn: nobody sets the word, and the
   run comes to its limit. Where context 1's store came before that copy the run halts, so that trying a few seeds proves nothing. Right
   with a yield() in the loop, or with a node for each context. */
#include "../alewife.h"

LINE static uint32_t ready;

void program(uint32_t context, uint32_t contexts)
{
    if (context == contexts - 1)
        store_word(&ready, 1);
    while (!load_word(&ready))
        ;
    print(context);
}
