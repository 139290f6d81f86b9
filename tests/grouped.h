/* Groups (document 02, Q-3), worked out in the plainest way: which groups of a store are wanted, in which order their members go out,
   and the answer with the first so many groups, built from document 01's layouts. The stores are those of ranked.h with serial numbers
   that elements share. What is known is a set of serial numbers, each by how far it is above FIRST_SERIAL. */
#ifndef GROUPED_H
#define GROUPED_H

#include "build.h"
#include "ranked.h"

#include <stdlib.h>

/* What an ask is about: which serial numbers are known, which elements the filters leave in, and so which groups are wanted. Their
   members stand one behind the other, and of these the first k groups have the first ends[k]. */
struct groups {
    uint8_t known[MOST], in[MOST];
    unsigned count, ends[MOST + 1], position[MOST];
};

/* ---- which are wanted, and in which order */

/* Row order, for all elements: a pass for each rank. */
static inline void find_rows(const struct ranked *s, unsigned *rows) {
    unsigned n = 0;
    for (unsigned rank = 1; rank <= RANKS; rank++) {
        for (unsigned i = 0; i < s->count; i++) {
            if (rank_of(s->type[i]) == rank) {
                rows[n++] = i;
            }
        }
    }
}

/* "at the place of its first member": whether no row before this one has its serial number. */
static inline int is_first(const struct ranked *s, const unsigned *rows, unsigned row) {
    unsigned before = 0;
    while (before < row && s->serial[rows[before]] != s->serial[rows[row]]) {
        before++;
    }
    return before == row;
}

/* "The filters let a group in as soon as they let one member in." */
static inline int lets_in(const struct ranked *s, const struct groups *g, unsigned serial) {
    unsigned i = 0;
    while (i < s->count && !(s->serial[i] == serial && g->in[i])) {
        i++;
    }
    return i < s->count;
}

/* "A group goes out whole", its members in row order. */
static inline void add_group(const struct ranked *s, const unsigned *rows, struct groups *g, unsigned serial) {
    unsigned end = g->ends[g->count];
    for (unsigned row = 0; row < s->count; row++) {
        if (s->serial[rows[row]] == serial) {
            g->position[end++] = rows[row];
        }
    }
    g->ends[++g->count] = end;
}

static inline void find_groups(const struct ranked *s, struct groups *g) {
    unsigned rows[MOST];
    find_rows(s, rows);
    g->count = g->ends[0] = 0;
    for (unsigned row = 0; row < s->count; row++) {
        unsigned serial = s->serial[rows[row]];
        if (is_first(s, rows, row) && lets_in(s, g, serial) && !g->known[serial]) {
            add_group(s, rows, g, serial);
        }
    }
}

/* Nothing known, everything in. */
static inline void want_all_groups(const struct ranked *s, struct groups *g) {
    memset(g->known, 0, sizeof g->known);
    memset(g->in, 1, sizeof g->in);
    find_groups(s, g);
}

/* ---- the answers */

/* The answer to an ask with the id 1 with the first k of the groups that are wanted: each adds one serial number. */
static inline struct text page_of_groups(const struct ranked *s, const struct groups *g, unsigned k) {
    struct text elements = {0}, answer = {0};
    struct range ranges[MOST];
    uint8_t known[MOST];
    memcpy(known, g->known, sizeof known);
    for (unsigned i = 0; i < g->ends[k]; i++) {
        add(&elements, s->bytes.at + s->place[g->position[i]], s->length[g->position[i]]);
        known[s->serial[g->position[i]]] = 1;
    }
    add_answer_front(&answer, elements, QUERY);
    add_changes(&answer, s, k < g->count);
    add_knowledge(&answer, ranges, known_ranges(known, MOST, ranges));
    add_answer_ends(&answer);
    return answer;
}

/* What the first k groups have in the store, to which a limit applies: all their members. */
static inline uint64_t length_of_groups(const struct ranked *s, const struct groups *g, unsigned k) {
    uint64_t sum = 0;
    for (unsigned i = 0; i < g->ends[k]; i++) {
        sum += s->length[g->position[i]];
    }
    return sum;
}

/* A request with these filters, which are given up, this limit and what is known. */
static inline struct text request_for_groups(const struct groups *g, struct text filters, uint64_t limit) {
    struct range ranges[MOST];
    struct text request = {0};
    add_request_front(&request, 0);
    add_constraint(&request, limit);
    add_text(&request, &filters);
    add_knowledge(&request, ranges, known_ranges(g->known, MOST, ranges));
    add_request_ends(&request);
    return request;
}

/* ---- filters */

/* A filter of the element at this position alone, with this operation. */
static inline void add_position_filter(struct text *t, unsigned operation, unsigned position) {
    add_start(t, FILTER, 1, 2);
    add_byte(t, 6);
    add_byte(t, operation);
    add_start(t, FILTER_IDS, 0, 19);
    add_compact(t, 1);
    add_le(t, 2, (uint64_t)(FIRST_ID + position) << 6 | 0x20);
    add_like(t, 16, 0x1D);
    add_end(t, FILTER);
}

#endif
