/* Buffers that a test lends to a call: what they hold before, and whether a part still holds it. The bytes differ from place
   to place, so that one copied from elsewhere shows too; and there are some before and behind what is lent. */
#ifndef LENT_H
#define LENT_H

#include <stddef.h>
#include <stdint.h>
#include <stdio.h>
#include <stdlib.h>

#define AROUND 64u

struct lent {
    uint8_t *all; /* AROUND bytes, those that are lent, AROUND bytes */
    size_t length;
};

static inline uint8_t lent_byte(size_t i) {
    return (uint8_t)(0xA5u + i * 7u + i / 256u);
}

static inline void *room_for(size_t n) {
    void *p = malloc(n == 0 ? 1 : n);
    if (p == NULL) {
        printf("there is no memory for %zu bytes\n", n);
        exit(2);
    }
    return p;
}

static inline struct lent lend(size_t length) {
    struct lent l = {room_for(length + 2 * AROUND), length};
    for (size_t i = 0; i < length + 2 * AROUND; i++) {
        l.all[i] = lent_byte(i);
    }
    return l;
}

/* What the call is handed: a null pointer where nothing is lent. */
static inline uint8_t *front_of(struct lent l) {
    return l.length == 0 ? NULL : l.all + AROUND;
}

static inline int as_lent(struct lent l, size_t from, size_t to) {
    for (size_t i = from; i < to; i++) {
        if (l.all[i] != lent_byte(i)) {
            return 0;
        }
    }
    return 1;
}

/* Whether all but the first n bytes that were lent are as they were. */
static inline int kept_behind(struct lent l, size_t n) {
    return n <= l.length && as_lent(l, 0, AROUND) && as_lent(l, AROUND + n, l.length + 2 * AROUND);
}

static inline void give_back(struct lent l) {
    free(l.all);
}

/* The number in eight bytes, the lowest first. */
static inline uint64_t number_in(const uint8_t *p) {
    uint64_t x = 0;
    for (int i = 7; i >= 0; i--) {
        x = x * 256 + p[i];
    }
    return x;
}

#endif
