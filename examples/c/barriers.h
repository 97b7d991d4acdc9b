/* Barriers of the literature, beside the tree of alewife.h (`wait_for_all`): examples/c/barriers.c runs each. */
#ifndef BARRIERS_H
#define BARRIERS_H

#include "locks.h"

/* A central barrier with sense reversal (Hensgen, Finkel and Manber 1988; Mellor-Crummey and Scott 1991): a count of those that came, and one
   word, the sense, on which all wait and which the last one reverses. So the next round waits for the other sense, and nobody has to wait
   till all have left. The machine has no fetch-and-add: the count is behind a lock, which is CLH, since behind a test-and-set with pauses a
   round of 64 nodes takes eight times as long. It takes two lines for each context. */
struct central_barrier {
    struct clh_lock counting;
    LINE uint32_t arrived;
    LINE uint32_t sense;
};

/* Waits until all contexts have come here. A context keeps no sense of its own: it reads the word before it comes, till when nobody reverses it. */
static inline void central_wait_for_all(struct central_barrier *barrier, uint32_t contexts)
{
    uint32_t sense = load_word(&barrier->sense);
    clh_acquire(&barrier->counting);
    uint32_t arrived = ++barrier->arrived;
    if (arrived == contexts)
        barrier->arrived = 0;
    clh_release(&barrier->counting);
    if (arrived == contexts)
        store_word(&barrier->sense, !sense);
    while (load_word(&barrier->sense) == sense)
        yield();
}

/* A dissemination barrier (Hensgen, Finkel and Manber 1988; Mellor-Crummey and Scott 1991): in step k each context tells the one that is 2^k
   behind it that it has come, and waits for the one that is 2^k before it. With n contexts all know of all after log n steps, and nobody is
   last. Each word has one that stores there and one that waits. It takes a line for each context, and one for each of its steps. */
enum { DISSEMINATION_STEPS = 32 - __builtin_clz((CONTEXTS - 1) | 1) };

struct dissemination_barrier {
    struct {
        LINE uint32_t round;
        struct {
            LINE uint32_t told;
        } in[DISSEMINATION_STEPS];
    } EACH(of);
};

/* Waits until all contexts have come here. What is told is the number of the round, in place of a parity and a sense. Who tells may be a round
   ahead when the other one looks. So that one waits while it finds the number of the last round, and not until it finds that of its own. */
static inline void dissemination_wait_for_all(struct dissemination_barrier *barrier, uint32_t contexts)
{
    uint32_t own = own_context(), round = ++AT(barrier->of, own).round;
    for (uint32_t step = 0; 1u << step < contexts; step++) {
        uint32_t behind = own + (1u << step);
        store_word(&AT(barrier->of, behind < contexts ? behind : behind - contexts).in[step].told, round);
        while (load_word(&AT(barrier->of, own).in[step].told) == round - 1)
            yield();
    }
}

#endif
