/* What the tests at the edges of lent memory share: memory between pages that may not be touched, a count of answers. */
#ifndef ROOMS_H
#define ROOMS_H

#define _DEFAULT_SOURCE
#include <stdio.h>
#include <stdlib.h>
#include <string.h>
#include <sys/mman.h>
#include <unistd.h>
#include "yay.h"

#define ROOM ((size_t)1 << 21)

static int tried, wrong;

static void expect(int holds, const char *what, size_t detail) {
    tried++;
    if (!holds) {
        wrong++;
        printf("FAILED: %s (%zu)\n", what, detail);
    }
}

/* Memory between two pages that may not be touched. */
struct room {
    uint8_t *low, *high;
};

static struct room make_room(void) {
    size_t page = (size_t)sysconf(_SC_PAGESIZE);
    uint8_t *all = mmap(NULL, ROOM + 2 * page, PROT_NONE, MAP_PRIVATE | MAP_ANONYMOUS, -1, 0);
    if (all == MAP_FAILED || mprotect(all + page, ROOM, PROT_READ | PROT_WRITE) != 0) {
        perror("boundary");
        exit(2);
    }
    return (struct room){all + page, all + page + ROOM};
}

static void protect(struct room room, int how) {
    if (mprotect(room.low, ROOM, how) != 0) {
        perror("boundary");
        exit(2);
    }
}

/* The part of a room of so many bytes that touches its end, or its beginning. */
static uint8_t *part(struct room room, size_t bytes, int at_end) {
    return at_end ? room.high - bytes : room.low;
}

#endif
