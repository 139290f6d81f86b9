/* A request that queries changes, read whole. put.h has the one that puts them. */
#ifndef PEER_REQUEST_H
#define PEER_REQUEST_H

#include "filters.h"
#include "ranges.h"

struct asked {
    uint64_t id, limit;
    size_t filters_at; /* where the first filter stands or would stand */
    unsigned filters;  /* how many there are */
    struct choice choice;
    struct ranges known;
};

/* Its filters are put to the elements of the store, and what it knows into the ranges. Padding is refused in every part of it, also
   in what is passed over. */
int read_request(struct input *in, struct asked *asked, const struct store *store);

#endif
