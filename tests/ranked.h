/* A store whose elements have types of their own, and what is awaited of it: its elements by rank and, within a rank, by place in
   the store, worked out by five passes over it, and the answer with the first so many of them, built from document 01's layouts.
   The id of an element is 0x20 and its position, its serial number FIRST_SERIAL and its position, unless a test shares serial numbers
   out otherwise (grouped.h); so what is known is a set of positions. */
#ifndef RANKED_H
#define RANKED_H

#include "build.h"
#include "limits.h"

#include <stdlib.h>

#define MOST 256u
#define RANKS 5u
#define FIRST_SERIAL 7u
#define FIRST_ID 0x20u

struct ranked {
    unsigned count;
    uint64_t type[MOST];
    unsigned serial[MOST]; /* how far the serial number is above FIRST_SERIAL */
    size_t place[MOST], length[MOST];
    struct text bytes;
};

/* What an ask is about: which elements are known, which the filters leave in, and so which are wanted, in row order. */
struct wanted {
    uint8_t known[MOST], in[MOST];
    unsigned count, position[MOST];
};

/* ---- the store */

/* An element of this type, with this serial number, and with objects inside so that the lengths differ from one to the next. A wide
   type has its number in 9 bytes. */
static inline void add_typed(struct text *t, unsigned position, unsigned serial, uint64_t type, int wide) {
    struct text data = {0};
    add_le(&data, 2, (uint64_t)(FIRST_ID + position) << 6 | 0x20);
    add_like(&data, 16, 0x1D);
    add_byte(&data, 0x80);
    add_like(&data, 16, SERIALS);
    add_le(&data, 8, FIRST_SERIAL + serial);
    if (wide) {
        add_byte(&data, 0x80);
        add_le(&data, 8, type);
    } else {
        add_compact(&data, type);
    }
    add_start(t, ELEMENT, 1, data.length);
    add_text(t, &data);
    add_start(t, INSIDE, 0, 1 + position * 5 % 7);
    add_like(t, 1 + position * 5 % 7, position);
    add_end(t, ELEMENT);
}

/* With these serial numbers, or with those of the positions if there are none. */
static inline struct ranked *store_with(const uint64_t *types, const unsigned *serials, unsigned count, int wide) {
    struct ranked *s = room_for(sizeof *s);
    struct text elements = {0};
    s->count = count;
    for (unsigned i = 0; i < count; i++) {
        s->type[i] = types[i];
        s->serial[i] = serials == NULL ? i : serials[i];
        s->place[i] = 3 + elements.length; /* behind the package's start and its byte */
        add_typed(&elements, i, s->serial[i], types[i], wide);
        s->length[i] = 3 + elements.length - s->place[i];
    }
    memset(&s->bytes, 0, sizeof s->bytes);
    add_package(&s->bytes, elements);
    return s;
}

static inline struct ranked *ranked_store(const uint64_t *types, unsigned count, int wide) {
    return store_with(types, NULL, count, wide);
}

static inline void ranked_free(struct ranked *s) {
    free(s->bytes.at);
    free(s);
}

/* ---- the order */

/* Document 02: "type 1, then 2, 3, 4, then all others". */
static inline unsigned rank_of(uint64_t type) {
    return type >= 1 && type < RANKS ? (unsigned)type : RANKS;
}

/* "by rank and, within a rank, by place in the store": a pass for each rank. */
static inline void find_wanted(const struct ranked *s, struct wanted *w) {
    w->count = 0;
    for (unsigned rank = 1; rank <= RANKS; rank++) {
        for (unsigned i = 0; i < s->count; i++) {
            if (rank_of(s->type[i]) == rank && w->in[i] && !w->known[i]) {
                w->position[w->count++] = i;
            }
        }
    }
}

/* Nothing known, everything in. */
static inline void want_all(const struct ranked *s, struct wanted *w) {
    memset(w->known, 0, sizeof w->known);
    memset(w->in, 1, sizeof w->in);
    find_wanted(s, w);
}

/* The position of the first element of type 1 in the store, which 0x5F names; the count, if there is none. */
static inline unsigned first_index(const struct ranked *s) {
    unsigned i = 0;
    while (i < s->count && s->type[i] != 1) {
        i++;
    }
    return i;
}

/* ---- the answers */

/* The ranges of what is known: a run of positions is a range. */
static inline size_t known_ranges(const uint8_t *known, unsigned count, struct range *r) {
    size_t n = 0;
    for (unsigned i = 0; i < count; i++) {
        if (known[i] && (i == 0 || !known[i - 1])) {
            struct range one = {SERIALS, FIRST_SERIAL + i, 0};
            r[n++] = one;
        }
        if (known[i]) {
            r[n - 1].to = FIRST_SERIAL + i;
        }
    }
    return n;
}

/* The object 0x5F. */
static inline void add_changes(struct text *t, const struct ranked *s, unsigned partial) {
    unsigned index = first_index(s);
    add_start(t, CHANGES, 0, index < s->count ? 19 : 2);
    if (index < s->count) {
        add_le(t, 2, (uint64_t)(FIRST_ID + index) << 6 | 0x20);
        add_like(t, 16, 0x1D);
    } else {
        add_byte(t, 0);
    }
    add_byte(t, partial);
}

/* The answer to an ask with the id 1 with the first k of what is wanted. */
static inline struct text page_of(const struct ranked *s, const struct wanted *w, unsigned k) {
    struct text elements = {0}, answer = {0};
    struct range ranges[MOST];
    uint8_t known[MOST];
    memcpy(known, w->known, sizeof known);
    for (unsigned i = 0; i < k; i++) {
        add(&elements, s->bytes.at + s->place[w->position[i]], s->length[w->position[i]]);
        known[w->position[i]] = 1;
    }
    add_answer_front(&answer, elements, QUERY);
    add_changes(&answer, s, k < w->count);
    add_knowledge(&answer, ranges, known_ranges(known, s->count, ranges));
    add_answer_ends(&answer);
    return answer;
}

/* What the first k of the wanted have in the store, to which a limit applies. */
static inline uint64_t stored_length(const struct ranked *s, const struct wanted *w, unsigned k) {
    uint64_t sum = 0;
    for (unsigned i = 0; i < k; i++) {
        sum += s->length[w->position[i]];
    }
    return sum;
}

#endif
