/* What include/string.h declares, and texts as printed words. */
#include <assert.h>
#include <string.h>
#include "alewife.h"

static char room[32];

/* Which of two texts is the greater one: 1, 0 or -1 for the first, none or the second. */
static int32_t greater(const char *one, const char *other)
{
    int order = strcmp(one, other);
    return (order > 0) - (order < 0);
}

void program(uint32_t context, uint32_t contexts)
{
    if (context != 0)
        return;
    assert(strcpy(room, "cached line") == room);
    print_text(room);
    print2((uint32_t)strlen(room), (uint32_t)strlen(""));
    print2((uint32_t)greater("home", "handler"), (uint32_t)greater("\x80", "\x7f"));
    print2((uint32_t)greater("node", "nodes"), (uint32_t)greater("node", "node"));
    memmove(room + 2, room, 12);
    print_text(room);
    memset(room + 4, 'x', 3);
    memcpy(room, "RO", 2);
    print_text(room);
    print((uint32_t)(memcmp(room, "ROca", 4) == 0));
}
