/* A plain model of a put (document 02, Q-1), in lists: which elements a made store then has, in which order and with which serial
   numbers, and its bytes. It reads no bytes: it knows what was made. */
#ifndef PEER_MODEL_PUT_H
#define PEER_MODEL_PUT_H

#include "make.h"

struct put_model {
    unsigned refusal;           /* 0, 16 or 9; if it is not 0, there is nothing else */
    unsigned count;             /* of the elements that the store then has */
    unsigned handed[MOST_MADE]; /* what stands at each position: the put's element of this number, counted from 1; 0 if it stays */
    uint64_t highest;           /* number under the hub's GUID before the put, 0 if there is none */
    struct text store;          /* the new store, and where its elements stand */
    size_t places[MOST_MADE], lengths[MOST_MADE];
};

/* What the put of the maker's last elements, which stand in a text, makes of its last store. */
void begin_put_model(struct put_model *p, const struct maker *m, const struct text *store, const struct text *elements,
                     const uint8_t *hub);

/* The maker's store is from now on the new one. */
void take_put(const struct put_model *p, struct maker *m, const uint8_t *hub);

#endif
