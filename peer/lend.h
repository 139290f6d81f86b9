/* Memory that the drivers lend to the calls: blocks of any length up to a room that end exactly where a protected page begins, so
   that one byte past their end stops the program. What stands before a block holds a pattern that is looked at afterwards. */
#ifndef PEER_LEND_H
#define PEER_LEND_H

#include <stddef.h>
#include <stdint.h>
#include <string.h>

struct block {
    uint8_t *end; /* the protected page */
    size_t room;
};

struct block new_block(size_t room);

/* The last n bytes before the protected page; a null pointer for none. */
static inline uint8_t *lent(struct block b, size_t n) {
    return n == 0 ? NULL : b.end - n;
}

/* Whether two blocks hold the same; either may be a null pointer if they have no bytes. */
static inline int same_bytes(const uint8_t *a, const uint8_t *b, size_t n) {
    return n == 0 || memcmp(a, b, n) == 0;
}

/* Copies bytes to the end of a block. */
const uint8_t *lend_copy(struct block b, const uint8_t *bytes, size_t n);

/* Fills the last n bytes and some before them with the pattern. */
uint8_t *lend_filled(struct block b, size_t n);

/* Whether what lend_filled left before the last n bytes is as it was. */
int kept_before(struct block b, size_t n);

/* Whether all of the last n bytes are as they were from this one on. */
int kept_from(struct block b, size_t n, size_t from);

/* Both, of n bytes of which a call wrote the first `written`, as it says. */
int kept_beside(struct block b, size_t n, uint64_t written);

#endif
