/* A forecast in steps, after the program Weather of the ASPLOS 1991 paper: each context moves the four cells of its own line, by their neighbours
   and by a factor that is another one in each step and that all need. SHARED says how they get it: WIDE, context 0 stores it into one word in
   each step, which all read; ONCE, it stores those of all steps before the first one; TREE, it goes down the tree of the barrier; OWN, each
   context computes it. Context 0 prints a sum over the cells at the end, which is the same by each way. */
#include "alewife.h"

enum { WIDE, ONCE, TREE, OWN, STEPS = 8, CELLS = 4 };

#ifndef SHARED
#define SHARED WIDE
#endif

LINE static uint32_t cells[2][CONTEXTS][CELLS];
LINE static uint32_t once[STEPS];
static struct barrier barrier;
static struct {
    LINE uint32_t factor;
} wide[2];

static uint32_t factor_of(uint32_t step)
{
    return (step * 2654435761u >> 28) + 3;
}

/* Waits for all at the end of a step, and answers the factor of the next one. */
static uint32_t next_factor(uint32_t step, uint32_t context, uint32_t contexts)
{
    uint32_t told = 0;
    if (SHARED == WIDE && context == 0)
        wide[step % 2].factor = factor_of(step);
    if (SHARED == TREE && context == 0)
        told = factor_of(step);
    told = sum_of_all(&barrier, contexts, told);
    return SHARED == WIDE ? wide[step % 2].factor : SHARED == ONCE ? once[step % STEPS] : SHARED == TREE ? told : factor_of(step);
}

static void begin(uint32_t context)
{
    for (uint32_t k = 0; k < CELLS; k++)
        cells[0][context][k] = (context * CELLS + k) * 2654435761u >> 16;
    if (SHARED == ONCE && context == 0)
        for (uint32_t step = 0; step < STEPS; step++)
            once[step] = factor_of(step);
}

static void move(uint32_t (*old)[CELLS], uint32_t *new, uint32_t context, uint32_t contexts, uint32_t factor)
{
    uint32_t left = old[(context + contexts - 1) % contexts][CELLS - 1], right = old[(context + 1) % contexts][0];
    for (uint32_t k = 0; k < CELLS; k++) {
        uint32_t before = k == 0 ? left : old[context][k - 1], after = k == CELLS - 1 ? right : old[context][k + 1];
        new[k] = (before + after + factor * old[context][k]) >> 4;
    }
}

void program(uint32_t context, uint32_t contexts)
{
    uint32_t sum = 0, factor;
    begin(context);
    factor = next_factor(0, context, contexts);
    for (uint32_t step = 1; step <= STEPS; step++) {
        move(cells[(step - 1) % 2], cells[step % 2][context], context, contexts, factor);
        factor = next_factor(step, context, contexts);
    }
    for (uint32_t k = 0; k < CELLS; k++)
        sum += cells[STEPS % 2][context][k] * (context * CELLS + k + 1);
    sum = sum_of_all(&barrier, contexts, sum);
    if (context == 0)
        print(sum);
}
