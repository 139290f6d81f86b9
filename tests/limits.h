/* What the programs share that hold the calls exported to C to their limits: a line for each thing that is tried, and stores,
   requests and answers of a given length or a given number of elements or ranges. */
#ifndef LIMITS_H
#define LIMITS_H

#include "../include/hub.h"
#include "build.h"
#include "lent.h"

#include <stdio.h>

#define SERIALS 0x22u /* the GUID of the serial numbers */
#define OTHERS 0x70u  /* a GUID of other ranges; it comes behind */
#define LONGEST ((size_t)HUB_LONGEST_INPUT)

static int failures = 0;

static inline void tell(const char *group, const char *what, int good) {
    printf("%s, %s: %s\n", group, good ? "ok" : "NOT OK", what);
    failures += !good;
}

/* A number that document 01 gives. */
static inline void paper(const char *what, int good) {
    tell("document 01", what, good);
}

/* And what document 02 says. */
static inline void document_02(const char *what, int good) {
    tell("document 02", what, good);
}

/* And what was asked for beyond the two. */
static inline void beyond(const char *what, int good) {
    tell("beyond the documents", what, good);
}

/* What is tried beside them. */
static inline void beside(const char *what, int good) {
    tell("beside it", what, good);
}

/* The last line, and the exit status. */
static inline int ended(void) {
    printf("%d not ok\n", failures);
    return failures > 0;
}

/* A store of n elements whose serial numbers count up. */
static inline struct text store_of(uint64_t serial, unsigned n) {
    struct text elements = {0}, store = {0};
    add_elements(&elements, 1, SERIALS, serial, n);
    add_package(&store, elements);
    return store;
}

/* A request with the id 1, this limit and n known ranges. */
static inline void add_request(struct text *t, uint64_t limit, const struct range *r, size_t n, size_t agent) {
    add_request_front(t, agent);
    add_constraint(t, limit);
    add_knowledge(t, r, n);
    add_request_ends(t);
}

static inline struct text request_of(uint64_t limit, const struct range *r, size_t n) {
    struct text request = {0};
    add_request(&request, limit, r, n, 0);
    return request;
}

/* A store of n elements of 47 bytes, and 3 more for each object of a short type nested inside them. */
static inline struct text many_store(unsigned n, unsigned nested) {
    struct text elements = {0}, store = {0};
    add_many_elements(&elements, SERIALS, 7, n, nested);
    add_package(&store, elements);
    return store;
}

/* An answer with n such elements and this knowledge, which stands behind 34 bytes and the elements'. */
static inline struct text many_answer(unsigned n, unsigned nested, struct text knowledge) {
    struct text elements = {0}, empty = {0}, answer = {0};
    add_many_elements(&elements, SERIALS, 7, n, nested);
    add_answer(&empty, elements, 0, NULL, 0);
    add(&answer, empty.at, empty.length - 7); /* but for an empty knowledge of 3 bytes, and two ends */
    add(&answer, knowledge.at, knowledge.length);
    add(&answer, empty.at + empty.length - 4, 4);
    free(empty.at);
    return answer;
}

/* A knowledge of n ranges, at most 513, which are all the same: 28 bytes and 20 for each. */
static inline struct text same_ranges(unsigned n) {
    static struct range r[513];
    struct text knowledge = {0};
    for (unsigned i = 0; i < n; i++) {
        struct range x = {OTHERS, 5, 5};
        r[i] = x;
    }
    add_knowledge(&knowledge, r, n);
    return knowledge;
}

/* One of another kind with n objects nested in it, at its byte 22. */
static inline struct text other_knowledge(unsigned n) {
    struct text knowledge = {0};
    add_other_knowledge(&knowledge, n);
    return knowledge;
}

/* A store of exactly n bytes: its one element has a long object inside. 54 bytes and 4 of the true length are around it. */
static inline struct text long_store(size_t n) {
    struct text elements = {0}, store = {0};
    add_element(&elements, 1, SERIALS, 7, n - 58);
    add_package(&store, elements);
    return store;
}

/* The answer with the one element of a store of n bytes: 82 bytes more. */
static inline struct text long_answer(size_t n) {
    struct range seven[1] = {{SERIALS, 7, 7}};
    struct text elements = {0}, answer = {0};
    add_element(&elements, 1, SERIALS, 7, n - 58);
    add_answer(&answer, elements, 0, seven, 1);
    return answer;
}

#endif
