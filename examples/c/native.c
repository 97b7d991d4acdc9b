/* Runs a program's contexts as threads, and writes what they print: PROGRAM CONTEXTS. The lines are a report's, by context. */
#include <pthread.h>
#include <stdio.h>
#include <stdlib.h>
#include "alewife.h"

enum { MOST_PRINTS = 4096 };

struct context {
    pthread_t thread;
    uint32_t count;
    uint32_t words[MOST_PRINTS];
};

static struct context *table;
static uint32_t contexts;
static _Thread_local struct context *own;

void print(uint32_t word)
{
    if (own->count == MOST_PRINTS) {
        fprintf(stderr, "native: a context prints more than %d words\n", MOST_PRINTS);
        exit(1);
    }
    own->words[own->count++] = word;
}

uint32_t own_context(void)
{
    return (uint32_t)(own - table);
}

static void *begin(void *context)
{
    own = context;
    program(own_context(), contexts);
    return NULL;
}

int main(int count, char **words)
{
    contexts = count == 2 ? (uint32_t)strtoul(words[1], NULL, 10) : 0;
    table = contexts >= 1 && contexts <= CONTEXTS ? calloc(contexts, sizeof *table) : NULL;
    if (!table) {
        fprintf(stderr, "native: one word, how many contexts, 1 to %d\n", CONTEXTS);
        return 2;
    }
    for (uint32_t i = 0; i < contexts; i++)
        if (pthread_create(&table[i].thread, NULL, begin, &table[i])) {
            fprintf(stderr, "native: no thread for context %u\n", i);
            return 1;
        }
    for (uint32_t i = 0; i < contexts; i++)
        pthread_join(table[i].thread, NULL);
    for (uint32_t i = 0; i < contexts; i++)
        for (uint32_t k = 0; k < table[i].count; k++)
            printf("%u 0x%08x\n", i, table[i].words[k]);
    return 0;
}
