/* Filters, put to the elements of a store as they are read. */
#ifndef PEER_FILTERS_H
#define PEER_FILTERS_H

#include "store.h"

#define MOST_FILTERS 16u
#define MOST_IDS 64u

/* The elements, and for each whether it is in; without elements filters are only judged. */
struct choice {
    const struct store *store;
    uint8_t in[MOST_ELEMENTS];
};

void begin_choice(struct choice *choice, const struct store *store);

struct header;

/* One filter behind its header, which was read; `before` filters came before it. Filters are a request's, so that padding is
   refused. */
int read_filter(struct input *in, struct header *h, unsigned before, struct choice *choice);

#endif
