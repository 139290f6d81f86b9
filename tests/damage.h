/* Small damage to bytes that are right: what the tests of refusals hand in. Each gives a new block of its own. */
#ifndef DAMAGE_H
#define DAMAGE_H

#include "build.h"

/* A request with the id 1 and nothing in it: 45 bytes. */
static inline struct text plain_request(void) {
    struct text request = {0};
    add_request_front(&request, 0);
    add_request_ends(&request);
    return request;
}

/* The first n bytes. */
static inline struct text cut(struct text t, size_t n) {
    struct text other = {0};
    add(&other, t.at, n);
    return other;
}

/* With another byte at a place. */
static inline struct text put(struct text t, size_t at, unsigned b) {
    struct text other = cut(t, t.length);
    other.at[at] = (uint8_t)b;
    return other;
}

static inline struct text put_behind(struct text t, unsigned b) {
    struct text other = cut(t, t.length);
    add_byte(&other, b);
    return other;
}

/* Without n bytes from a place on. */
static inline struct text without(struct text t, size_t at, size_t n) {
    struct text other = cut(t, at);
    add(&other, t.at + at + n, t.length - at - n);
    return other;
}

/* With a part put in at a place; the part is given up. */
static inline struct text with(struct text t, size_t at, struct text part) {
    struct text other = cut(t, at);
    add_text(&other, &part);
    add(&other, t.at + at, t.length - at);
    return other;
}

/* With n objects put in at a place, each nested in the one before. */
static inline struct text nested_at(struct text t, size_t at, unsigned n) {
    struct text nested = {0};
    add_nested(&nested, n);
    return with(t, at, nested);
}

/* With a null id in the element that stands at a place, 16 bytes shorter; its start has the length in the upper 7 bits. */
static inline struct text null_id(struct text t, size_t at) {
    struct text other = without(t, at + 3, 16);
    other.at[at + 1] = (uint8_t)(other.at[at + 1] - 16 * 2);
    other.at[at + 2] = 0;
    return other;
}

/* And with a null serial number, 24 bytes shorter. */
static inline struct text null_serial(struct text t, size_t at) {
    struct text other = without(t, at + 20, 24);
    other.at[at + 1] = (uint8_t)(other.at[at + 1] - 24 * 2);
    other.at[at + 19] = 0;
    return other;
}

#endif
