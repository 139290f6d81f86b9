/* The store that a put makes of a store (document 02, Q-1): which elements it has, in which order and with which serial numbers,
   and its bytes. What an answer makes of a book begins in the same way (keep.c). */
#ifndef PEER_NEW_STORE_H
#define PEER_NEW_STORE_H

#include "put.h"
#include "ranges.h"

struct new_element {
    const struct element *element; /* of the store if it stays, of the put or the answer if it enters */
    int enters;
    struct name serial; /* if it enters by a put, the new one */
};

struct new_store {
    unsigned count;
    struct new_element elements[MOST_ELEMENTS];
    uint64_t length; /* of its bytes */
};

/* Decides which elements the new store has, in which order: 0, or 9. What enters comes in place of the element with its id, or
   behind all others; its serial number is the one that it came with. */
unsigned enter_all(struct new_store *made, const struct store *store, const struct store *entering);

/* Package start, zero byte and end; and the first two written, as every new store begins. */
#define PACKAGE_BYTES 4u
uint8_t *put_package_start(uint8_t *p);

/* Decides the new store of a put: 0, or 15, 16, 9 or 1. New serial numbers are under the hub's GUID. */
unsigned apply_put(struct new_store *made, const struct store *store, const struct put *put, struct guid hub);

/* Puts every serial number that is now stored into a set. */
void know_all(struct ranges *set, const struct new_store *made);

/* Writes the new store out of the bytes of the store and of the put. */
void put_new_store(uint8_t *p, const struct new_store *made, const uint8_t *store, const uint8_t *put);

#endif
