/* Groups, linked in one pass over the rows: a hash table has the last row of each group so far, to which the next is linked. */
#include "groups.h"

#include <string.h>

/* The slot that has the last row of the group with this serial number, or the empty one where it would stand. A slot has a row and
   1, or 0. */
static unsigned slot_with(const uint16_t *last, const struct groups *groups, const struct name *serial) {
    unsigned slot = slot_of(serial);
    while (last[slot] != 0 && !same_name(&element_at(groups, last[slot] - 1u)->serial, serial)) {
        slot = (slot + 1) % SLOTS;
    }
    return slot;
}

void link_groups(struct groups *groups, const struct store *store, const struct order *order) {
    uint16_t last[SLOTS];
    unsigned row;
    groups->store = store;
    groups->order = order;
    memset(last, 0, sizeof last);
    for (row = 0; row < store->count; row++) {
        unsigned slot = slot_with(last, groups, &element_at(groups, row)->serial);
        groups->first[row] = last[slot] == 0;
        groups->next[row] = NO_ROW;
        if (last[slot] != 0) {
            groups->next[last[slot] - 1] = (uint16_t)row;
        }
        last[slot] = (uint16_t)(row + 1);
    }
}
