/* Groups (document 02, Q-3): the elements of a store that share a serial number. A group stands in row order where its first member
   does, and its members follow one another in row order. An element whose serial number no other has is a group by itself. */
#ifndef PEER_GROUPS_H
#define PEER_GROUPS_H

#include "order.h"

#define NO_ROW MOST_ELEMENTS

struct groups {
    const struct store *store;
    const struct order *order;
    uint8_t first[MOST_ELEMENTS]; /* for each row whether it is the first of its group */
    uint16_t next[MOST_ELEMENTS]; /* and the row of the next member, or NO_ROW behind the last */
};

/* The element that a row is for. */
static inline const struct element *element_at(const struct groups *groups, unsigned row) {
    return &groups->store->elements[groups->order->position[row]];
}

void link_groups(struct groups *groups, const struct store *store, const struct order *order);

#endif
