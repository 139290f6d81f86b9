/* Bytes that grow at their end, numbers that a seed determines, and damage to bytes. */
#ifndef PEER_TEXT_H
#define PEER_TEXT_H

#include <stddef.h>
#include <stdint.h>

/* Bytes that grow at their end. */
struct text {
    uint8_t *at;
    size_t length, room;
};

void text_add(struct text *t, const void *p, size_t n);
void text_byte(struct text *t, unsigned b);
void text_like(struct text *t, size_t n, unsigned b);
void text_little(struct text *t, uint64_t x, unsigned n);
static inline void text_clear(struct text *t) {
    t->length = 0;
}
void text_free(struct text *t);

/* A sequence of numbers that a seed determines (xorshift). */
struct luck {
    uint64_t state;
};

struct luck luck_from(uint64_t seed);
uint64_t luck_next(struct luck *l);
uint64_t luck_below(struct luck *l, uint64_t n);
static inline int luck_one_in(struct luck *l, uint64_t n) {
    return luck_below(l, n) == 0;
}
/* A number of any size, often one at the end of a form's range. */
uint64_t luck_number(struct luck *l);

/* Damage that knows nothing of layouts: bytes changed, lost, put in, cut off. */
void damage(struct luck *l, struct text *t);

#endif
