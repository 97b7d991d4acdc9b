/* What GCC calls for its atomics (__atomic_fetch_add, compare_exchange, _Atomic and so on) of 1, 2, 4 and 8 bytes. SPARC V8 has LDSTUB and
   SWAP alone, so each is done behind a lock that the line of its address chooses; a load of a word or less needs none. */
#include <stdbool.h>
#include "alewife.h"

enum { LOCKS = 16 };

static struct {
    LINE struct lock lock;
} locks[LOCKS];

static struct lock *lock_of(const volatile void *address)
{
    return &locks[(uintptr_t)address / 16 % LOCKS].lock;
}

#define LOAD_OF_A_WORD(size, type) \
    type load_##size(const volatile void *from, int order) __asm__("__atomic_load_" #size); \
    type load_##size(const volatile void *from, int order) \
    { \
        type value = *(const volatile type *)from; \
        __asm__ volatile("" : : : "memory"); \
        return value; \
    }

#define LOAD_OF_MORE(size, type) \
    type load_##size(const volatile void *from, int order) __asm__("__atomic_load_" #size); \
    type load_##size(const volatile void *from, int order) \
    { \
        acquire(lock_of(from)); \
        type value = *(const volatile type *)from; \
        release(lock_of(from)); \
        return value; \
    }

/* An update behind the lock: the word becomes `after`, in which `old` is what it was. */
#define UPDATE(name, size, type, after) \
    type name##_##size(volatile void *at, type value, int order) __asm__("__atomic_" #name "_" #size); \
    type name##_##size(volatile void *at, type value, int order) \
    { \
        acquire(lock_of(at)); \
        type old = *(volatile type *)at; \
        *(volatile type *)at = after; \
        release(lock_of(at)); \
        return old; \
    }

#define STORE(size, type) \
    void store_##size(volatile void *at, type value, int order) __asm__("__atomic_store_" #size); \
    void store_##size(volatile void *at, type value, int order) \
    { \
        acquire(lock_of(at)); \
        *(volatile type *)at = value; \
        release(lock_of(at)); \
    }

#define COMPARE_EXCHANGE(size, type) \
    bool compare_exchange_##size(volatile void *at, void *expected, type wanted, int order, int other) __asm__("__atomic_compare_exchange_" #size); \
    bool compare_exchange_##size(volatile void *at, void *expected, type wanted, int order, int other) \
    { \
        acquire(lock_of(at)); \
        type old = *(volatile type *)at; \
        bool is_expected = old == *(type *)expected; \
        if (is_expected) \
            *(volatile type *)at = wanted; \
        release(lock_of(at)); \
        *(type *)expected = old; \
        return is_expected; \
    }

#define ATOMICS(size, type) \
    STORE(size, type) \
    COMPARE_EXCHANGE(size, type) \
    UPDATE(exchange, size, type, value) \
    UPDATE(fetch_add, size, type, (type)(old + value)) \
    UPDATE(fetch_sub, size, type, (type)(old - value)) \
    UPDATE(fetch_and, size, type, (type)(old & value)) \
    UPDATE(fetch_or, size, type, (type)(old | value)) \
    UPDATE(fetch_xor, size, type, (type)(old ^ value)) \
    UPDATE(fetch_nand, size, type, (type)~(old & value))

LOAD_OF_A_WORD(1, uint8_t)
LOAD_OF_A_WORD(2, uint16_t)
LOAD_OF_A_WORD(4, uint32_t)
LOAD_OF_MORE(8, uint64_t)
ATOMICS(1, uint8_t)
ATOMICS(2, uint16_t)
ATOMICS(4, uint32_t)
ATOMICS(8, uint64_t)
