/* What GCC calls where the machine has no instruction: quotients and rests, and numbers of 64 bits; and what include/ declares. What a
   program doesn't use isn't linked. Floating point isn't here. */
#include "alewife.h"

uint32_t unsigned_quotient(uint32_t, uint32_t) __asm__(".udiv");
uint32_t unsigned_rest(uint32_t, uint32_t) __asm__(".urem");
int32_t signed_quotient(int32_t, int32_t) __asm__(".div");
int32_t signed_rest(int32_t, int32_t) __asm__(".rem");

#if CONTEXTS_A_NODE > 1 && !YIELDS_AT_HOME
LINE volatile uint32_t yield_words[1][YIELD_LINES + 1][4];
#endif

/* Divides bit by bit, from the quotient's highest. Where the divisor is 0 the context traps with tt 0x82. */
static uint32_t divide(uint32_t dividend, uint32_t divisor, uint32_t *rest)
{
    uint32_t quotient = 0, bit = 1;
    if (divisor == 0)
        __asm__ volatile("ta 2");
    for (; divisor < dividend && divisor >> 31 == 0; bit <<= 1)
        divisor <<= 1;
    for (; bit != 0; bit >>= 1, divisor >>= 1)
        if (divisor <= dividend) {
            dividend -= divisor;
            quotient |= bit;
        }
    *rest = dividend;
    return quotient;
}

static uint32_t size_of(int32_t number)
{
    return number < 0 ? -(uint32_t)number : (uint32_t)number;
}

uint32_t unsigned_quotient(uint32_t dividend, uint32_t divisor)
{
    uint32_t rest;
    return divide(dividend, divisor, &rest);
}

uint32_t unsigned_rest(uint32_t dividend, uint32_t divisor)
{
    uint32_t rest;
    divide(dividend, divisor, &rest);
    return rest;
}

int32_t signed_quotient(int32_t dividend, int32_t divisor)
{
    uint32_t rest, quotient = divide(size_of(dividend), size_of(divisor), &rest);
    return (dividend < 0) != (divisor < 0) ? -quotient : quotient;
}

int32_t signed_rest(int32_t dividend, int32_t divisor)
{
    uint32_t rest;
    divide(size_of(dividend), size_of(divisor), &rest);
    return dividend < 0 ? -rest : rest;
}

/* ---- numbers of 64 bits; GCC adds, subtracts, compares and shifts them by constants itself */

uint64_t __muldi3(uint64_t, uint64_t);
uint64_t __ashldi3(uint64_t, int);
uint64_t __lshrdi3(uint64_t, int);
int64_t __ashrdi3(int64_t, int);
uint64_t __udivdi3(uint64_t, uint64_t);
uint64_t __umoddi3(uint64_t, uint64_t);
int64_t __divdi3(int64_t, int64_t);
int64_t __moddi3(int64_t, int64_t);

/* A number by its halves, as the machine has it in memory. */
union halves {
    uint64_t whole;
    struct {
        uint32_t high, low;
    };
};

uint64_t __muldi3(uint64_t one, uint64_t other)
{
    union halves left = {one}, right = {other}, product;
    __asm__("umul %2,%3,%0; rd %%y,%1" : "=&r"(product.low), "=r"(product.high) : "r"(left.low), "r"(right.low));
    product.high += left.high * right.low + left.low * right.high;
    return product.whole;
}

uint64_t __ashldi3(uint64_t number, int count)
{
    union halves from = {number}, to;
    if (count == 0)
        return number;
    to.high = count < 32 ? from.high << count | from.low >> (32 - count) : from.low << (count - 32);
    to.low = count < 32 ? from.low << count : 0;
    return to.whole;
}

uint64_t __lshrdi3(uint64_t number, int count)
{
    union halves from = {number}, to;
    if (count == 0)
        return number;
    to.low = count < 32 ? from.low >> count | from.high << (32 - count) : from.high >> (count - 32);
    to.high = count < 32 ? from.high >> count : 0;
    return to.whole;
}

int64_t __ashrdi3(int64_t number, int count)
{
    return number < 0 ? (int64_t)~__lshrdi3(~(uint64_t)number, count) : (int64_t)__lshrdi3((uint64_t)number, count);
}

static uint64_t divide_wide(uint64_t dividend, uint64_t divisor, uint64_t *rest)
{
    uint64_t quotient = 0, bit = 1;
    if (divisor == 0)
        __asm__ volatile("ta 2");
    for (; divisor < dividend && divisor >> 63 == 0; bit <<= 1)
        divisor <<= 1;
    for (; bit != 0; bit >>= 1, divisor >>= 1)
        if (divisor <= dividend) {
            dividend -= divisor;
            quotient |= bit;
        }
    *rest = dividend;
    return quotient;
}

static uint64_t size_of_wide(int64_t number)
{
    return number < 0 ? -(uint64_t)number : (uint64_t)number;
}

uint64_t __udivdi3(uint64_t dividend, uint64_t divisor)
{
    uint64_t rest;
    return divide_wide(dividend, divisor, &rest);
}

uint64_t __umoddi3(uint64_t dividend, uint64_t divisor)
{
    uint64_t rest;
    divide_wide(dividend, divisor, &rest);
    return rest;
}

int64_t __divdi3(int64_t dividend, int64_t divisor)
{
    uint64_t rest, quotient = divide_wide(size_of_wide(dividend), size_of_wide(divisor), &rest);
    return (dividend < 0) != (divisor < 0) ? -quotient : quotient;
}

int64_t __moddi3(int64_t dividend, int64_t divisor)
{
    uint64_t rest;
    divide_wide(size_of_wide(dividend), size_of_wide(divisor), &rest);
    return dividend < 0 ? -rest : rest;
}

/* ---- memory and strings */

void *memcpy(void *restrict to, const void *restrict from, size_t count)
{
    for (size_t i = 0; i < count; i++)
        ((uint8_t *)to)[i] = ((const uint8_t *)from)[i];
    return to;
}

void *memmove(void *to, const void *from, size_t count)
{
    if ((uintptr_t)to <= (uintptr_t)from)
        return memcpy(to, from, count);
    while (count-- > 0)
        ((uint8_t *)to)[count] = ((const uint8_t *)from)[count];
    return to;
}

void *memset(void *to, int byte, size_t count)
{
    for (size_t i = 0; i < count; i++)
        ((uint8_t *)to)[i] = (uint8_t)byte;
    return to;
}

int memcmp(const void *one, const void *other, size_t count)
{
    const uint8_t *left = one, *right = other;
    for (size_t i = 0; i < count; i++)
        if (left[i] != right[i])
            return left[i] < right[i] ? -1 : 1;
    return 0;
}

size_t strlen(const char *text)
{
    size_t count = 0;
    while (text[count] != 0)
        count++;
    return count;
}

int strcmp(const char *one, const char *other)
{
    size_t i = 0;
    while (one[i] != 0 && one[i] == other[i])
        i++;
    return (uint8_t)one[i] - (uint8_t)other[i];
}

char *strcpy(char *restrict to, const char *restrict from)
{
    return memcpy(to, from, strlen(from) + 1);
}
