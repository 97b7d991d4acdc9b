/* Atomics of C11 on variables that all contexts share: sums, tickets, a stack by compare-and-exchange, and flags as locks. Behind a barrier
   each context prints what came of them, and the tags before the words say which is which. */
#include <assert.h>
#include <limits.h>
#include <stdatomic.h>
#include <stdbool.h>
#include "alewife.h"

enum { ROUNDS = 4, SUMS = 1, TICKETS, STACK, FLAGS };

LINE static _Atomic uint32_t sum;
LINE static _Atomic uint64_t wide;
LINE static _Atomic uint16_t half;
LINE static _Atomic uint8_t byte;
LINE static uint32_t next_ticket;
LINE static uint32_t serving;
LINE static uint32_t served;
LINE static _Atomic uint32_t top;
LINE static atomic_flag flag = ATOMIC_FLAG_INIT;
LINE static uint8_t taken;
LINE static uint32_t flagged;
static uint32_t below[CONTEXTS * ROUNDS + 1];
static struct barrier barrier;

static_assert(INT_MIN < 0 && UINT_MAX == 0xffffffffu && CHAR_BIT == 8, "the ends of numbers");

static void add(uint32_t context)
{
    sum += context;
    wide += 0x80000001u;
    atomic_fetch_xor(&half, (uint16_t)(1u << context % 16));
    byte--;
}

/* Counts behind tickets. */
static void take_ticket(void)
{
    uint32_t ticket = __atomic_fetch_add(&next_ticket, 1, __ATOMIC_SEQ_CST);
    while (__atomic_load_n(&serving, __ATOMIC_SEQ_CST) != ticket)
        yield();
    served++;
    __atomic_store_n(&serving, ticket + 1, __ATOMIC_SEQ_CST);
}

/* Pushes a number above 0 onto the stack. */
static void push(uint32_t number)
{
    uint32_t old = atomic_load(&top);
    do
        below[number] = old;
    while (!atomic_compare_exchange_weak(&top, &old, number));
}

/* Counts behind a flag, and behind a byte of LDSTUB. */
static void count_by_flags(void)
{
    while (atomic_flag_test_and_set(&flag))
        yield();
    while (test_and_set(&taken))
        yield();
    flagged++;
    *(volatile uint8_t *)&taken = 0;
    atomic_flag_clear(&flag);
}

static uint32_t sum_of_stack(void)
{
    uint32_t count = 0, numbers = 0;
    for (uint32_t number = top; number != 0; number = below[number], count++)
        numbers += number;
    return numbers * 256 + count;
}

void program(uint32_t context, uint32_t contexts)
{
    for (uint32_t i = 0; i < ROUNDS; i++) {
        add(context);
        take_ticket();
        push(context * ROUNDS + i + 1);
        count_by_flags();
    }
    wait_for_all(&barrier, contexts);
    assert(served == contexts * ROUNDS && wide == (uint64_t)contexts * ROUNDS * 0x80000001u);
    print2(SUMS, sum + half + byte + (uint32_t)(wide >> 32));
    print2(TICKETS, atomic_exchange(&sum, sum) + serving);
    print2(STACK, sum_of_stack());
    print2(FLAGS, flagged);
}
