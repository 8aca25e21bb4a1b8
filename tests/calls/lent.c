#include "lent.h"

#include <stdio.h>
#include <stdlib.h>
#include <string.h>

#define MOST_LENT 8
#define ROOM (1 << 20)
#define FILLING 0xa5

struct copy {
    const void *lent;
    size_t size;
    const unsigned char *bytes;
};

static struct copy copies[MOST_LENT];
static size_t copies_count;
static unsigned char room[ROOM];
static size_t room_used;

static void stop(const char *why)
{
    fprintf(stderr, "%s\n", why);
    exit(2);
}

void *lend(void *bytes, size_t size)
{
    if (copies_count == MOST_LENT || size > ROOM - room_used)
        stop("more is lent to one call than there is room to copy");
    unsigned char *copy = room + room_used;
    memcpy(copy, bytes, size);
    copies[copies_count++] = (struct copy){bytes, size, copy};
    room_used += size;
    return bytes;
}

void *lend_blank(void *bytes, size_t size)
{
    memset(bytes, FILLING, size);
    return lend(bytes, size);
}

bool as_before(void)
{
    bool same = true;
    for (size_t k = 0; k < copies_count; k++)
        same = same && memcmp(copies[k].lent, copies[k].bytes, copies[k].size) == 0;
    copies_count = 0;
    room_used = 0;
    return same;
}
