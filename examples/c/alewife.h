/* What a program asks of the machine: print words, test and set, exchange, give way, locks, a barrier.

   A program has one function, `program`, which each context runs to its end. Built for this machine (examples/c/build), a context is a
   context of a node; built natively with native.c, it is a thread. A native build is what a run's prints are compared with. */
#ifndef ALEWIFE_H
#define ALEWIFE_H

#include <stdint.h>
#include <string.h>
#include "each.h"

/* The program. `context` counts from 0, and there are `contexts`, at most CONTEXTS. */
void program(uint32_t context, uint32_t contexts);

/* A variable with this begins a line of 16 bytes, so that it shares none with what stands before it. One that EACH declares does so anyway. */
#define LINE _Alignas(16)

#ifdef __sparc__

/* Prints a word: a line `context 0xword` of the report. */
static inline void print(uint32_t word)
{
    register uint32_t printed __asm__("o0") = word;
    __asm__ volatile("ta 1" : : "r"(printed) : "memory");
}

/* Sets a byte to 255 and answers what it was, at one stroke (LDSTUB). */
static inline uint32_t test_and_set(uint8_t *byte)
{
    uint32_t old;
    __asm__ volatile("ldstub [%1],%0" : "=r"(old) : "r"(byte) : "memory");
    return old;
}

/* Puts a value into a word and answers what it was, at one stroke (SWAP). */
static inline uint32_t exchange(uint32_t *word, uint32_t value)
{
    __asm__ volatile("swap [%1],%0" : "+r"(value) : "r"(word) : "memory");
    return value;
}

/* Loads and stores a word that other contexts store or load meanwhile: one instruction, where it stands in the program. */
static inline uint32_t load_word(const uint32_t *word)
{
    uint32_t value = *(const volatile uint32_t *)word;
    __asm__ volatile("" : : : "memory");
    return value;
}

static inline void store_word(uint32_t *word, uint32_t value)
{
    __asm__ volatile("" : : : "memory");
    *(volatile uint32_t *)word = value;
}

/* The number of the context that asks, which start.s keeps in %g7. */
static inline uint32_t own_context(void)
{
    uint32_t context;
    __asm__("mov %%g7,%0" : "=r"(context));
    return context;
}

/* The number of its node: a quotient without a division, right for up to 1024 contexts. */
static inline uint32_t own_node(void)
{
    return own_context() * ((1 << 17) / CONTEXTS_A_NODE + 1) >> 17;
}

/* Lets the node's other contexts run. A context gives way only where it misses, so this loads from two lines that no cache of at most
   256 sets can hold at once: one of them is missing. Where a node has 512 home lines, or 256 more, and so on, each of its contexts has two
   of these, in a set of its own, and else all contexts share two. A context that is alone on its node has nobody to give way to. */
#if CONTEXTS_A_NODE > 1
enum { YIELD_LINES = 256, YIELD_STEP = YIELD_LINES / 4 };
extern volatile uint32_t yield_words[][YIELDS_AT_HOME ? LINES_A_NODE : YIELD_LINES + 1][4];
static inline void yield(void)
{
    uint32_t node = YIELDS_AT_HOME ? own_node() : 0, first = YIELDS_AT_HOME ? (own_context() - node * CONTEXTS_A_NODE) * YIELD_STEP : 0;
    (void)yield_words[node][first][0];
    (void)yield_words[node][first + YIELD_LINES][0];
}
#else
static inline void yield(void)
{
}
#endif

#else /* a native build */

#include <sched.h>

#define CONTEXTS 1024

void print(uint32_t word);
uint32_t own_context(void);

static inline uint32_t test_and_set(uint8_t *byte)
{
    return __atomic_exchange_n(byte, 255, __ATOMIC_SEQ_CST);
}

static inline uint32_t exchange(uint32_t *word, uint32_t value)
{
    return __atomic_exchange_n(word, value, __ATOMIC_SEQ_CST);
}

static inline uint32_t load_word(const uint32_t *word)
{
    return __atomic_load_n(word, __ATOMIC_SEQ_CST);
}

static inline void store_word(uint32_t *word, uint32_t value)
{
    __atomic_store_n(word, value, __ATOMIC_SEQ_CST);
}

static inline void yield(void)
{
    sched_yield();
}

#endif

/* Prints two words, of which the first says what the second is. */
static inline void print2(uint32_t tag, uint32_t value)
{
    print(tag);
    print(value);
}

/* Prints a text, four characters a word, and behind them a 0 at least. */
static inline void print_text(const char *text)
{
    for (size_t at = 0, count = strlen(text); at <= count; at += 4) {
        uint32_t word = 0;
        for (size_t i = at; i < at + 4; i++)
            word = word << 8 | (i < count ? (uint8_t)text[i] : 0);
        print(word);
    }
}

/* A lock: free while its word is 0. Put it into a line of its own, away from what it protects. */
struct lock {
    uint32_t taken;
};

/* Test-and-test-and-set (Rudolph and Segall 1984): looks before it tries again. A look is a copy, and a try takes the line from all others. */
static inline void acquire(struct lock *lock)
{
    while (exchange(&lock->taken, 1))
        while (load_word(&lock->taken))
            yield();
}

static inline void release(struct lock *lock)
{
    store_word(&lock->taken, 0);
}

/* A lock with a queue (MCS: Mellor-Crummey and Scott 1991): each context waits on a line of its own, and the one before it stores there. Contexts
   are told by their number plus 1, and 0 is none. It takes a line for each context. */
struct queue_lock {
    LINE uint32_t last;
    struct {
        LINE uint32_t next;
        uint32_t waits;
    } EACH(of);
};

/* Waits for the lock, and takes it. */
static inline void queue_acquire(struct queue_lock *lock)
{
    uint32_t own = own_context() + 1, before;
    store_word(&AT(lock->of, own - 1).next, 0);
    store_word(&AT(lock->of, own - 1).waits, 1);
    before = exchange(&lock->last, own);
    if (before == 0)
        return;
    store_word(&AT(lock->of, before - 1).next, own);
    while (load_word(&AT(lock->of, own - 1).waits))
        yield();
}

/* Gives the lock to the next context. Without compare-and-swap the queue is taken off and put back where somebody has come meanwhile, and
   who comes between the two is before those that were there. */
static inline void queue_release(struct queue_lock *lock)
{
    uint32_t own = own_context() + 1, next = load_word(&AT(lock->of, own - 1).next), between = 0;
    if (next == 0) {
        uint32_t last = exchange(&lock->last, 0);
        if (last == own)
            return;
        between = exchange(&lock->last, last);
        while ((next = load_word(&AT(lock->of, own - 1).next)) == 0)
            yield();
    }
    if (between)
        store_word(&AT(lock->of, between - 1).next, next);
    else
        store_word(&AT(lock->of, next - 1).waits, 0);
}

/* A barrier as a tree (after Mellor-Crummey and Scott 1991), in which context c stands above 2c + 1 and 2c + 2. Each line has one context that stores
   there and one that waits for it, so that none has more than two readers. It takes two lines for each context. */
struct barrier {
    struct {
        LINE uint32_t arrived;
        uint32_t part;
        LINE uint32_t released;
        uint32_t whole;
    } EACH(of);
};

/* Waits until all contexts have come here with a number, and answers the sum: waits for those below, then for the one above, and lets those
   below go on. */
static inline uint32_t sum_of_all(struct barrier *barrier, uint32_t contexts, uint32_t number)
{
    uint32_t own = own_context(), round = load_word(&AT(barrier->of, own).released) + 1;
    uint32_t first = 2 * own + 1, end = first + 2 < contexts ? first + 2 : contexts;
    for (uint32_t below = first; below < end; below++) {
        while (load_word(&AT(barrier->of, below).arrived) != round)
            yield();
        number += AT(barrier->of, below).part;
    }
    if (own > 0) {
        AT(barrier->of, own).part = number;
        store_word(&AT(barrier->of, own).arrived, round);
        while (load_word(&AT(barrier->of, own).released) != round)
            yield();
        number = AT(barrier->of, own).whole;
    } else
        store_word(&AT(barrier->of, own).released, round);
    for (uint32_t below = first; below < end; below++) {
        AT(barrier->of, below).whole = number;
        store_word(&AT(barrier->of, below).released, round);
    }
    return number;
}

/* Waits until all contexts have come here. */
static inline void wait_for_all(struct barrier *barrier, uint32_t contexts)
{
    sum_of_all(barrier, contexts, 0);
}

#endif
