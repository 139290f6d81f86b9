/* Row order. It is sorted by counting, as there are few ranks: where the rows of each begin is known before any is placed. */
#include "order.h"

#define RANKS 5u

unsigned rank_of(const struct element *e) {
    return e->type >= 1 && e->type < RANKS ? (unsigned)e->type : RANKS;
}

void order_rows(struct order *order, const struct store *store) {
    unsigned next[RANKS + 2] = {0}, rank, i; /* the next row of a rank; first, at the rank behind it, how many it has */
    for (i = 0; i < store->count; i++) {
        next[rank_of(&store->elements[i]) + 1]++;
    }
    for (rank = 2; rank <= RANKS; rank++) {
        next[rank] += next[rank - 1];
    }
    for (i = 0; i < store->count; i++) {
        order->position[next[rank_of(&store->elements[i])]++] = (uint16_t)i;
    }
}
