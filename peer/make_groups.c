/* The serial numbers of the elements of a store, one behind the other: each its own; shared by two, by some, by many, by all or by
   all but one; and such that are alike in the GUID or in the number, and the same in both only at times. Types are made apart from
   them, so that a group has members of any rank, with others between. */
#include "make_inner.h"

#include <string.h>

enum { APART, IN_PAIRS, SHARED, BY_TURNS, ALL_ONE, ALIKE, WAYS };

/* The largest groups there can be come from the largest stores, which are seldom made. */
void begin_serials(struct maker *m, unsigned elements) {
    int largest = m->scale == 2 && luck_one_in(&m->luck, 2);
    m->serials_go = luck_one_in(&m->luck, 3) ? APART : largest ? ALL_ONE : (unsigned)luck_below(&m->luck, WAYS);
    m->turns = 2 + (unsigned)luck_below(&m->luck, 3);
    m->alone = (unsigned)luck_below(&m->luck, 2 * elements + 1);
}

static void new_serial(struct maker *m, struct made_name *serial) {
    do {
        some_serial(m, serial);
    } while (used(m->serials, m->elements, serial));
}

static int same_serial(const struct maker *m, unsigned a, unsigned b) {
    return m->serials[a].number == m->serials[b].number && memcmp(m->serials[a].guid, m->serials[b].guid, 16) == 0;
}

/* Whether no other element so far has the serial number of this one. */
static int is_alone(const struct maker *m, unsigned element) {
    unsigned i;
    for (i = 0; i < m->elements; i++) {
        if (i != element && same_serial(m, i, element)) {
            return 0;
        }
    }
    return 1;
}

/* Which element the next one shares its serial number with; the number of elements if it gets one of its own. */
static unsigned shares_with(struct maker *m) {
    unsigned n = m->elements, other = (unsigned)luck_below(&m->luck, n), own = luck_one_in(&m->luck, 2) ? n : other;
    switch (m->serials_go) {
    case IN_PAIRS:
        return own < n && is_alone(m, own) ? own : n;
    case SHARED:
        return own;
    case BY_TURNS:
        return n < m->turns ? n : n % m->turns;
    case ALL_ONE:
        return n == m->alone ? n : m->alone == 0 ? n - 1 : 0;
    default:
        return n;
    }
}

void next_serial(struct maker *m, struct made_name *serial) {
    unsigned n = m->elements, other = n == 0 ? 0 : shares_with(m);
    if (other < n) {
        *serial = m->serials[other];
    } else if (n > 1 && m->serials_go == ALIKE) {
        memcpy(serial->guid, m->serials[luck_below(&m->luck, n)].guid, 16);
        serial->number = m->serials[luck_below(&m->luck, n)].number;
    } else {
        new_serial(m, serial);
    }
}

/* ---- the length of groups */

static unsigned rank_of_type(uint64_t type) {
    return type == 0 || type > 4 ? 5 : (unsigned)type;
}

/* Whether an element stands before another in row order. */
static int is_before(const struct maker *m, unsigned a, unsigned b) {
    unsigned x = rank_of_type(m->types[a]), y = rank_of_type(m->types[b]);
    return x < y || (x == y && a < b);
}

/* How many bytes the group has whose first member this is in row order; 0 if it is not the first. */
static uint64_t group_length(const struct maker *m, unsigned first) {
    uint64_t length = 0;
    unsigned i;
    for (i = 0; i < m->elements; i++) {
        if (same_serial(m, i, first)) {
            if (is_before(m, i, first)) {
                return 0;
            }
            length += m->lengths[i];
        }
    }
    return length;
}

uint64_t made_groups_length(const struct maker *m, unsigned groups) {
    uint64_t sum = 0;
    unsigned rank, i;
    for (rank = 1; rank <= 5; rank++) {
        for (i = 0; i < m->elements && groups > 0; i++) {
            uint64_t length = rank_of_type(m->types[i]) == rank ? group_length(m, i) : 0;
            sum += length;
            groups -= length > 0;
        }
    }
    return sum;
}
