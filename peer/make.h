/* What the drivers hand in: stores, filters, knowledges, requests, puts and answers, made of a list of decisions. Every decision of
   a made thing can be the one that is spoiled: the same seed gives the same thing again, with that decision taken wrong. */
#ifndef PEER_MAKE_H
#define PEER_MAKE_H

#include "text.h"

#define NOT_SPOILED UINT32_MAX
#define MOST_MADE 260u
#define MOST_MADE_RANGES 520u
#define MOST_MADE_FILTERS 20u
#define MOST_MADE_IDS 70u

struct made_name {
    uint8_t guid[16];
    uint64_t number;
};

struct made_range {
    uint8_t guid[16];
    uint64_t from, to;
};

/* Ids that are null are not kept: they match nothing. */
struct made_filter {
    unsigned kind, operation, count;
    uint64_t type;
    struct made_name ids[MOST_MADE_IDS];
};

/* What a put hands in: of each element what stays of it if it enters. */
struct made_entering {
    unsigned count;
    struct made_name ids[MOST_MADE];
    uint64_t types[MOST_MADE];
    size_t insides[MOST_MADE], lengths[MOST_MADE]; /* where its inside begins, and how long that is with the element's end */
};

struct maker {
    struct luck luck;   /* of the decisions */
    struct luck wrong;  /* of what a spoiled decision becomes, so that the others stay as they were */
    uint32_t decisions; /* so far */
    uint32_t spoiled;   /* which one is */
    unsigned scale;     /* 0 small, 1 larger, 2 at the limits of the counts */
    int pads;           /* padded numbers are right in what is made now: in a store and in an answer */
    int high;           /* serial numbers are next to 2^64-1 */
    unsigned types_go;  /* how the types of a store follow one another, of which so many are made, of so many elements */
    unsigned typed, to_type;
    unsigned serials_go; /* and how their serial numbers do: by turns out of so many, or with one element alone */
    unsigned turns, alone;
    unsigned elements;  /* of the last store that was made, with their names */
    struct made_name ids[MOST_MADE], serials[MOST_MADE];
    uint64_t types[MOST_MADE];
    size_t places[MOST_MADE], lengths[MOST_MADE]; /* where they stand */
    unsigned filters;                             /* of the last that were made */
    struct made_filter filter[MOST_MADE_FILTERS];
    unsigned said, ranges; /* of the last knowledge: ranges and entries, and what they say */
    struct made_range range[MOST_MADE_RANGES];
    struct made_entering entering; /* of the last put, or of elements for one */
    unsigned booked;               /* of the book that an answer is made for, 0 where there is none: ids that come again */
    struct made_name book[MOST_MADE];
};

void begin_making(struct maker *m, uint64_t seed, uint32_t spoiled);

void make_store(struct maker *m, struct text *t);
void make_filters(struct maker *m, struct text *t);
void make_knowledge(struct maker *m, struct text *t, unsigned levels);
void make_request(struct maker *m, struct text *t);
void make_answer(struct maker *m, struct text *t);

/* A put into the store that was made last; the elements of one, with nothing around them; the answer to one. */
void make_put(struct maker *m, struct text *t);
void make_elements(struct maker *m, struct text *t);
void make_put_answer(struct maker *m, struct text *t);

/* A book, and an answer that is kept in it, often with ids that the book has; its package is then the store that was made last. */
void make_keep(struct maker *m, struct text *book, struct text *answer);

/* A GUID for the hub that takes the put: often that of the highest serial number of the store. */
void make_hub(struct maker *m, uint8_t *guid);

/* The position of the storage index in the store that was made last, or the number of elements if there is none. */
unsigned made_index(const struct maker *m);

/* A store and a request whose knowledge has as many ranges as may be, or nearly; nothing of it is ever spoiled. */
void make_full(struct maker *m, struct text *store, struct text *request);

/* How many bytes the first groups of the store that was made last have together, so many of them, in row order. */
uint64_t made_groups_length(const struct maker *m, unsigned groups);

/* A store of as many elements as may be, of nearly as many, or of one or two too many. */
void make_many(struct maker *m, struct text *store);

/* A store and a put with which it has as many elements as may be, nearly as many, or one or two too many; or the put has. */
void make_many_put(struct maker *m, struct text *store, struct text *put, uint8_t *guid);

/* A book and an answer with which it has as many elements as may be, nearly as many, or one or two too many; never spoiled. */
void make_many_keep(struct maker *m, struct text *book, struct text *answer);

/* Parts of which these are made, in the shortest form and never spoiled. A null pointer is a null storage index. */
void plain_compact(struct text *t, uint64_t x);
void plain_start(struct text *t, unsigned type, unsigned compound, uint64_t length);
void plain_end(struct text *t, unsigned type);
void plain_element(struct text *t, uint64_t number, uint64_t type, size_t inside);
void plain_element_under(struct text *t, uint64_t number, uint64_t serial, uint64_t type, size_t inside);
void plain_request(struct text *t, size_t agent, const struct text *parts);
void plain_answer(struct text *t, const struct text *package);
void plain_put(struct text *t, const struct made_name *expected, const struct text *elements);
void plain_put_answer(struct text *t, const struct text *package);

#endif
