/* A queue under contention, with a lock at each end that is a queue itself: each context puts a number and takes one, four times over. Context
   0 prints the sum of what was taken, which is that of what was put, and how many are left. (Michael and Scott's queue of two locks.) */
#include "alewife.h"

enum { ROUNDS = 4 };

static struct queue_lock head_lock;
static struct queue_lock tail_lock;
LINE static uint32_t head;
LINE static uint32_t tail;
static uint32_t behind[CONTEXTS * ROUNDS + 1];
static struct barrier barrier;

static void put(uint32_t number)
{
    queue_acquire(&tail_lock);
    store_word(&behind[tail], number);
    tail = number;
    queue_release(&tail_lock);
}

/* Takes the number behind the head, which is 0 at first and what was taken last. There is one: a context takes no more than it has put. */
static uint32_t take(void)
{
    queue_acquire(&head_lock);
    head = load_word(&behind[head]);
    uint32_t number = head;
    queue_release(&head_lock);
    return number;
}

void program(uint32_t context, uint32_t contexts)
{
    uint32_t sum = 0;
    for (uint32_t i = 0; i < ROUNDS; i++) {
        put(context * ROUNDS + i + 1);
        sum += take();
    }
    sum = sum_of_all(&barrier, contexts, sum);
    if (context == 0)
        print2(sum, behind[head]);
}
