/* A ring of producers and consumers: each context takes what comes from the one before it, adds its number, and puts it into a buffer of four
   places to the one behind it. Context 0 sends eight items round, and prints how many came back wrong or out of order, and a sum of them. The
   contexts are three at least. */
#include "alewife.h"

enum { ITEMS = 8, PLACES = 4 };

/* A buffer: who puts counts what came, and who takes what went. */
struct buffer {
    LINE uint32_t put;
    LINE uint32_t taken;
    LINE uint32_t places[PLACES];
};

static struct buffer buffers[CONTEXTS];

static void put(struct buffer *buffer, uint32_t count, uint32_t item)
{
    while (count - load_word(&buffer->taken) == PLACES)
        yield();
    buffer->places[count % PLACES] = item;
    store_word(&buffer->put, count + 1);
}

static uint32_t take(struct buffer *buffer, uint32_t count)
{
    while (load_word(&buffer->put) == count)
        yield();
    uint32_t item = buffer->places[count % PLACES];
    store_word(&buffer->taken, count + 1);
    return item;
}

/* Context 0 puts all items, for which the ring has room, and takes what comes round. */
static void send_round(uint32_t contexts)
{
    uint32_t wrong = 0, sum = 0;
    for (uint32_t count = 0; count < ITEMS; count++)
        put(&buffers[0], count, count << 16);
    for (uint32_t count = 0; count < ITEMS; count++) {
        uint32_t item = take(&buffers[contexts - 1], count);
        wrong += item != (count << 16) + contexts * (contexts - 1) / 2;
        sum += item * (count + 1);
    }
    print2(wrong, sum);
}

void program(uint32_t context, uint32_t contexts)
{
    if (context == 0)
        send_round(contexts);
    else
        for (uint32_t count = 0; count < ITEMS; count++)
            put(&buffers[context], count, take(&buffers[context - 1], count) + context);
}
