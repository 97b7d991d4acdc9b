/* What runtime.c does in place of instructions: quotients and rests of 32 and 64 bits, wide products and shifts, and structures that are
   moved. Each number is taken with each, and a sum of all results is printed. Context 0 does it, the others do nothing. */
#include "alewife.h"

static const uint32_t numbers[] = {1, 10, 65537, 0x80000000, 0xfffffff6};

enum { NUMBERS = sizeof numbers / sizeof numbers[0] };

struct results {
    int32_t quotient, rest;
    uint32_t unsigned_quotient, unsigned_rest;
    int64_t wide_quotient, wide_rest;
    uint64_t product, left, right;
    int64_t signed_right;
};

static struct results __attribute__((noinline)) results_of(int32_t one, int32_t other)
{
    uint64_t wide = (uint64_t)(uint32_t)one << 32 | (uint32_t)other;
    int count = other & 63;
    struct results results = {
        .quotient = one / other, .rest = one % other,
        .unsigned_quotient = (uint32_t)one / (uint32_t)other, .unsigned_rest = (uint32_t)one % (uint32_t)other,
        .wide_quotient = (int64_t)wide / other, .wide_rest = (int64_t)wide % other,
        .product = wide * (wide ^ 0x123456789abcdef0u),
        .left = wide << count, .right = wide >> count, .signed_right = (int64_t)wide >> count,
    };
    return results;
}

static uint32_t folded(uint64_t sum)
{
    return (uint32_t)(sum >> 32) * 31 + (uint32_t)sum;
}

static uint32_t __attribute__((noinline)) sum_of(struct results results)
{
    uint32_t sum = (uint32_t)results.quotient * 3 + (uint32_t)results.rest * 5 + results.unsigned_quotient * 7 + results.unsigned_rest * 11;
    sum = sum * 31 + folded((uint64_t)results.wide_quotient) + folded((uint64_t)results.wide_rest) * 3;
    sum = sum * 31 + folded(results.product) + folded(results.left) * 3;
    return sum * 31 + folded(results.right) + folded((uint64_t)results.signed_right) * 3;
}

void program(uint32_t context, uint32_t contexts)
{
    (void)contexts;
    for (uint32_t i = 0; i < NUMBERS && context == 0; i++) {
        uint32_t sum = 0;
        for (uint32_t k = 0; k < NUMBERS; k++)
            sum = sum * 31 + sum_of(results_of((int32_t)numbers[i], (int32_t)numbers[k]));
        print(sum);
    }
}
