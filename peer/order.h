/* Row order (document 02, Q-14): the elements of a store by rank and, within a rank, by place in the store. Rows, and pages with
   their answers, follow it; positions and the storage index are the store's. */
#ifndef PEER_ORDER_H
#define PEER_ORDER_H

#include "store.h"

/* The position in the store of the element that each row is for. */
struct order {
    uint16_t position[MOST_ELEMENTS];
};

/* 1 to 4 for elements of these types, 5 for all others. */
unsigned rank_of(const struct element *e);

void order_rows(struct order *order, const struct store *store);

#endif
