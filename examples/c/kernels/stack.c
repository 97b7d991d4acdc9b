/* A stack under contention, behind a lock on which all spin: each context pushes a number and pops one, four times over. Context 0 prints
   the sum of what was popped, which is that of what was pushed, and how many are left. */
#include "alewife.h"

enum { ROUNDS = 4 };

LINE static struct lock lock;
LINE static uint32_t top;
static uint32_t below[CONTEXTS * ROUNDS + 1];
static struct barrier barrier;

static void push(uint32_t number)
{
    acquire(&lock);
    below[number] = top;
    top = number;
    release(&lock);
}

/* Pops a number. There is one: a context pops no more than it has pushed. */
static uint32_t pop(void)
{
    acquire(&lock);
    uint32_t number = top;
    top = below[number];
    release(&lock);
    return number;
}

void program(uint32_t context, uint32_t contexts)
{
    uint32_t sum = 0;
    for (uint32_t i = 0; i < ROUNDS; i++) {
        push(context * ROUNDS + i + 1);
        sum += pop();
    }
    sum = sum_of_all(&barrier, contexts, sum);
    if (context == 0)
        print2(sum, top);
}
