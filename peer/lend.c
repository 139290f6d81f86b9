/* Blocks that end at a protected page. */
#define _DEFAULT_SOURCE
#include "lend.h"

#include <stdio.h>
#include <stdlib.h>
#include <string.h>
#include <sys/mman.h>
#include <unistd.h>

#define BEFORE 64u

/* The pattern differs from place to place, counted from the end, so that a byte that was copied from elsewhere shows. It comes
   again after so many bytes, and is kept once, to be copied and compared in long parts. */
#define PERIOD 65536u

static uint8_t pattern[PERIOD]; /* the last PERIOD bytes before an end */

static void make_pattern(void) {
    size_t i;
    for (i = 1; i <= PERIOD; i++) {
        pattern[PERIOD - i] = (uint8_t)(0xA5u + i * 7u + i / 256u);
    }
}

struct block new_block(size_t room) {
    size_t page = (size_t)sysconf(_SC_PAGESIZE), whole = (room + BEFORE + page - 1) / page * page;
    uint8_t *p = mmap(NULL, whole + page, PROT_READ | PROT_WRITE, MAP_PRIVATE | MAP_ANONYMOUS, -1, 0);
    struct block b;
    make_pattern();
    if (p == MAP_FAILED || mprotect(p + whole, page, PROT_NONE) != 0) {
        printf("there is no memory for %zu bytes and a protected page\n", room);
        exit(2);
    }
    b.end = p + whole;
    b.room = room;
    return b;
}

static void hold(struct block b, size_t n) {
    if (n > b.room) {
        printf("%zu bytes are lent from a block of %zu\n", n, b.room);
        exit(2);
    }
}

const uint8_t *lend_copy(struct block b, const uint8_t *bytes, size_t n) {
    hold(b, n);
    if (n > 0) {
        memcpy(b.end - n, bytes, n);
    }
    return lent(b, n);
}

/* How many of n bytes lie in one period with the last of them, of which `behind` bytes stand behind. */
static size_t part_of(size_t n, size_t behind) {
    size_t most = PERIOD - behind % PERIOD;
    return n < most ? n : most;
}

uint8_t *lend_filled(struct block b, size_t n) {
    size_t behind = 0, part;
    hold(b, n);
    for (; behind < n + BEFORE; behind += part) {
        part = part_of(n + BEFORE - behind, behind);
        memcpy(b.end - behind - part, pattern + PERIOD - part, part);
    }
    return lent(b, n);
}

/* Whether the bytes between two places, both counted back from the end, are as they were. */
static int kept(struct block b, size_t behind, size_t front) {
    size_t part;
    for (; behind < front; behind += part) {
        part = part_of(front - behind, behind);
        if (memcmp(b.end - behind - part, pattern + PERIOD - behind % PERIOD - part, part) != 0) {
            return 0;
        }
    }
    return 1;
}

int kept_before(struct block b, size_t n) {
    return kept(b, n, n + BEFORE);
}

int kept_from(struct block b, size_t n, size_t from) {
    return kept(b, 0, n - from);
}

int kept_beside(struct block b, size_t n, uint64_t written) {
    return written <= n && kept_before(b, n) && kept_from(b, n, (size_t)written);
}
