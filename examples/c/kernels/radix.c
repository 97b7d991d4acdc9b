/* A radix sort: for each digit of the keys, lowest first, each context counts the digits of its share; a context for each digit sums the counts
   of all up to places; and each moves its keys. Behind each part is a barrier. Context 0 prints how many neighbours are out of order at the
   end, and a sum in which each key counts by its place. */
#include "alewife.h"

enum { COUNT = 512, DIGIT_BITS = 3, DIGITS = 1 << DIGIT_BITS, KEY_BITS = 9 };

LINE static uint32_t keys[2][COUNT];
LINE static uint32_t counts[DIGITS][CONTEXTS];
LINE static uint32_t totals[DIGITS];
static struct barrier barrier;

struct share {
    uint32_t context, contexts, first, last;
};

static uint32_t digit_of(uint32_t key, uint32_t shift)
{
    return key >> shift & (DIGITS - 1);
}

static void count_digits(const struct share *share, const uint32_t *from, uint32_t shift)
{
    uint32_t own[DIGITS] = {0};
    for (uint32_t i = share->first; i < share->last; i++)
        own[digit_of(from[i], shift)]++;
    for (uint32_t digit = 0; digit < DIGITS; digit++)
        counts[digit][share->context] = own[digit];
}

/* Of a digit: each count becomes the sum of those before it, and their sum is the total. */
static void sum_up(const struct share *share)
{
    for (uint32_t digit = share->context; digit < DIGITS; digit += share->contexts) {
        uint32_t sum = 0;
        for (uint32_t context = 0; context < share->contexts; context++) {
            uint32_t count = counts[digit][context];
            counts[digit][context] = sum;
            sum += count;
        }
        totals[digit] = sum;
    }
}

static void move_keys(const struct share *share, const uint32_t *from, uint32_t *to, uint32_t shift)
{
    uint32_t places[DIGITS], before = 0;
    for (uint32_t digit = 0; digit < DIGITS; before += totals[digit++])
        places[digit] = before + counts[digit][share->context];
    for (uint32_t i = share->first; i < share->last; i++)
        to[places[digit_of(from[i], shift)]++] = from[i];
}

static void print_sums(const struct share *share, const uint32_t *sorted)
{
    uint32_t out_of_order = 0, sum = 0;
    for (uint32_t i = share->first; i < share->last; i++) {
        out_of_order += i > 0 && sorted[i - 1] > sorted[i];
        sum += sorted[i] * i;
    }
    out_of_order = sum_of_all(&barrier, share->contexts, out_of_order);
    sum = sum_of_all(&barrier, share->contexts, sum);
    if (share->context == 0)
        print2(out_of_order, sum);
}

void program(uint32_t context, uint32_t contexts)
{
    struct share share = {context, contexts, context * COUNT / contexts, (context + 1) * COUNT / contexts};
    uint32_t now = 0;
    for (uint32_t i = share.first; i < share.last; i++)
        keys[0][i] = (i * 2654435761u) >> (32 - KEY_BITS);
    for (uint32_t shift = 0; shift < KEY_BITS; shift += DIGIT_BITS, now ^= 1) {
        count_digits(&share, keys[now], shift);
        wait_for_all(&barrier, contexts);
        sum_up(&share);
        wait_for_all(&barrier, contexts);
        move_keys(&share, keys[now], keys[now ^ 1], shift);
        wait_for_all(&barrier, contexts);
    }
    print_sums(&share, keys[now]);
}
