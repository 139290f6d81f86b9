/* A set of serial numbers as ranges: in the order of GUIDs and numbers, with none that touch or overlap. */
#ifndef PEER_RANGES_H
#define PEER_RANGES_H

#include "numbers.h"

#define MOST_RANGES 512u

struct range {
    struct guid guid;
    uint64_t from, to;
};

struct ranges {
    unsigned count;
    struct range rows[MOST_RANGES];
};

/* The first row that does not lie wholly before this number of this GUID: which has it, or would stand behind it. */
unsigned row_for(const struct ranges *set, struct guid guid, uint64_t number);

/* Whether the row at this position, which row_for gave, has the number. */
static inline int row_has(const struct ranges *set, unsigned row, struct guid guid, uint64_t number) {
    return row < set->count && same_guid(set->rows[row].guid, guid) && set->rows[row].from <= number;
}

/* Puts a range in and joins what then touches. There is room: no more than MOST_RANGES are ever put in. */
void add_range(struct ranges *set, const struct range *range);

/* Where one number goes that no row has: behind the row before or before the row at its position, if it touches them. */
struct fit {
    unsigned row;
    int before, behind;
};

struct fit fit_of(const struct ranges *set, unsigned row, struct guid guid, uint64_t number);

/* Puts the number in where it fits. There is room, unless it touches neither and there are MOST_RANGES. */
void add_number(struct ranges *set, struct fit fit, struct guid guid, uint64_t number);

#endif
