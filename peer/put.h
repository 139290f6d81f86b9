/* A put (document 02, Q-1): the request by which a bench hands in its changes, read whole. */
#ifndef PEER_PUT_H
#define PEER_PUT_H

#include "store.h"

struct put {
    uint64_t id;
    struct name expected;  /* the storage index that the bench expects, or null */
    struct store elements; /* that are to enter; their serial numbers are those that came */
};

/* Padding is refused in every part of it, its elements too. */
int read_put(struct input *in, struct put *put);

#endif
