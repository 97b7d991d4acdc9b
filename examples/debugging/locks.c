/* Wrong: two contexts take two locks in opposite orders. Where each has one, each waits for the other's. */
#include "alewife.h"

LINE static struct lock left, right;
LINE static volatile uint32_t moved;

static void move(struct lock *from, struct lock *to)
{
    acquire(from);
    acquire(to);
    moved++;
    release(to);
    release(from);
}

void program(uint32_t context, uint32_t contexts)
{
    if (context == 0)
        move(&left, &right);
    else
        move(&right, &left);
    print(moved);
}
