/* Quicksort by context 0: every sixth key, and a sum in which each key counts by its place. The others do nothing. */
#include "alewife.h"

enum { COUNT = 48 };

static uint32_t keys[COUNT];

/* Sorts keys[first] to keys[last - 1]. */
static void sort(uint32_t first, uint32_t last)
{
    while (last - first > 1) {
        uint32_t pivot = keys[(first + last) / 2], low = first, high = last - 1;
        while (low <= high) {
            while (keys[low] < pivot)
                low++;
            while (keys[high] > pivot)
                high--;
            if (low > high)
                break;
            uint32_t key = keys[low];
            keys[low++] = keys[high];
            keys[high--] = key;
        }
        sort(first, high + 1);
        first = low;
    }
}

void program(uint32_t context, uint32_t contexts)
{
    uint32_t draw = 7, sum = 0;
    if (context != 0)
        return;
    for (uint32_t i = 0; i < COUNT; i++) {
        draw = draw * 1664525 + 1013904223;
        keys[i] = draw % 1000;
    }
    sort(0, COUNT);
    for (uint32_t i = 0; i < COUNT; i++) {
        sum += keys[i] * i;
        if (i % 6 == 0)
            print(keys[i]);
    }
    print(sum);
}
