/* Bytes that grow at their end, numbers that a seed determines, and damage to bytes. */
#include "text.h"

#include <stdio.h>
#include <stdlib.h>
#include <string.h>

static void text_room(struct text *t, size_t n) {
    if (n > t->room - t->length) {
        t->room = (t->length + n) * 2;
        t->at = realloc(t->at, t->room);
        if (t->at == NULL) {
            printf("there is no memory for %zu bytes\n", t->room);
            exit(2);
        }
    }
}

void text_add(struct text *t, const void *p, size_t n) {
    if (n > 0) {
        text_room(t, n);
        memcpy(t->at + t->length, p, n);
        t->length += n;
    }
}

void text_byte(struct text *t, unsigned b) {
    uint8_t x = (uint8_t)b;
    text_add(t, &x, 1);
}

void text_like(struct text *t, size_t n, unsigned b) {
    if (n > 0) {
        text_room(t, n);
        memset(t->at + t->length, (int)b, n);
        t->length += n;
    }
}

void text_little(struct text *t, uint64_t x, unsigned n) {
    for (; n > 0; n--) {
        text_byte(t, (unsigned)(x & 255));
        x >>= 8;
    }
}

void text_free(struct text *t) {
    free(t->at);
    memset(t, 0, sizeof *t);
}

struct luck luck_from(uint64_t seed) {
    struct luck l;
    seed = (seed ^ seed >> 30) * 0xBF58476D1CE4E5B9u;
    seed = (seed ^ seed >> 27) * 0x94D049BB133111EBu;
    l.state = (seed ^ seed >> 31) | 1; /* never 0, which would stay 0 */
    return l;
}

uint64_t luck_next(struct luck *l) {
    l->state ^= l->state << 13;
    l->state ^= l->state >> 7;
    l->state ^= l->state << 17;
    return l->state * 0x2545F4914F6CDD1Du;
}

uint64_t luck_below(struct luck *l, uint64_t n) {
    return (luck_next(l) >> 11) % n;
}

uint64_t luck_number(struct luck *l) {
    unsigned bits = (unsigned)luck_below(l, 65);
    uint64_t x = bits == 0 ? 0 : luck_next(l) >> (64 - bits);
    switch (luck_below(l, 4)) {
    case 0:
        return luck_below(l, 12);
    case 1: { /* beside the end of a form's range */
        unsigned n = (unsigned)luck_below(l, 9);
        uint64_t edge = n == 8 ? 0 : (uint64_t)1 << 7 * n;
        return edge + luck_below(l, 4) - 2;
    }
    default:
        return x;
    }
}

/* A few bytes more, less or again, from a place on. */
static void damage_length(struct luck *l, struct text *t) {
    size_t at = (size_t)luck_below(l, t->length + 1), n = 1 + (size_t)luck_below(l, 4), left = t->length - at;
    struct text rest = {0};
    text_add(&rest, t->at + at, left);
    t->length = at;
    if (luck_one_in(l, 2)) {
        text_like(t, n, (unsigned)luck_below(l, 256));
        text_add(t, rest.at, rest.length);
    } else if (n <= left) {
        text_add(t, rest.at + n, left - n);
    }
    text_free(&rest);
}

void damage(struct luck *l, struct text *t) {
    unsigned times = 1 + (unsigned)luck_below(l, 3);
    for (; times > 0 && t->length > 0; times--) {
        size_t at = (size_t)luck_below(l, t->length);
        switch (luck_below(l, 6)) {
        case 0:
            t->at[at] ^= (uint8_t)(1u << luck_below(l, 8));
            break;
        case 1:
            t->at[at] = (uint8_t)luck_below(l, 256);
            break;
        case 2:
            t->at[at] = (uint8_t)(t->at[at] + 1);
            break;
        case 3:
            t->length = at;
            break;
        default:
            damage_length(l, t);
            break;
        }
    }
}
