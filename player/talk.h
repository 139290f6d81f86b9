/* A whole talk: the bench asks the hub again and again, until an answer is not marked partial, and the book grows. */
#ifndef TALK_H
#define TALK_H

#include "book.h"
#include "bytes.h"
#include "exchange.h"
#include "objects.h"
#include "options.h"

/* What a talk has: all zero before it begins. */
struct course {
    struct bytes store, filters;
    struct elements all, page; /* the store's elements, and those of the last answer */
    struct book book;
    struct exchange x;
    uint64_t answers, came, came_bytes, taken; /* taken: those that the book did not have */
    uint64_t before;                           /* how many answers came before the last put, behind which a new talk begins */
    int partial, quiet;
};

/* Reads the store and its elements. Faults are said. */
int store_read(const char *name, struct bytes *store, struct elements *all);

/* Reads the filters, if a file with some is named: hex, as a request has them. */
int filters_read(const char *name, struct bytes *filters);

/* Reads store, filters and book, and says what they are. Faults are said. */
int talk_begin(struct course *c, const struct options *o);

/* One ask and what comes of it, up to the book on the disk. */
int talk_ask(struct course *c);

/* Asks until an answer is unmarked, or so many answers came, and says what came of it all. */
int talk_to_end(struct course *c, uint64_t stop_after);

void talk_free(struct course *c);

/* All of these. */
int talk(const struct options *o);

#endif
