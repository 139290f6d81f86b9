/* Whether a book is in step with a store (check.h). What is known is asked of the library: what a talk without filters would bring
   with the book's knowledge is not known, and all else is. */
#include "check.h"
#include "../include/hub.h"
#include "book.h"
#include "exchange.h"
#include "objects.h"
#include "report.h"
#include "status.h"
#include "talk.h"

#include <stdio.h>
#include <stdlib.h>
#include <string.h>

struct comparison {
    struct bytes store;
    struct elements all;
    struct book book;
    int comes[MOST_ELEMENTS]; /* of the store's elements, by their positions: whether it would still come */
    size_t same;              /* the book has them byte for byte */
    size_t lost, stale;       /* known: those that the book lacks, and those that it has with other bytes */
    size_t new_ones, newer;   /* not known: the same two, which would still come */
    size_t apart;             /* that the book has and the store has not */
};

/* ---- what would still come */

/* Marks the store's elements that an answer has. Each has an id of its own. */
static void mark(struct comparison *c, const struct bytes *answer, const struct elements *page) {
    for (size_t i = 0; i < page->count; i++) {
        const struct element *e = &page->row[i];
        for (size_t k = 0; k < c->all.count; k++) {
            const struct element *mine = &c->all.row[k];
            if (mine->id_length == e->id_length && memcmp(c->store.at + mine->id, answer->at + e->id, e->id_length) == 0) {
                c->comes[k] = 1;
            }
        }
    }
}

/* Holds the talk that the book would go on with, without filters, and keeps nothing of it. */
static int find_coming(struct comparison *c) {
    static const struct bytes none = {NULL, 0, 0};
    struct elements *page = memory(sizeof *page);
    uint8_t report[HUB_REPORT_BYTES] = {0};
    struct exchange x;
    int status = ENDED_WELL, partial = 1;
    memset(&x, 0, sizeof x);
    x.store = &c->store;
    x.filters = &none;
    x.limit = HUB_NO_LIMIT;
    x.offered = HUB_LARGEST_ANSWER;
    x.quiet = 1;
    bytes_add(&x.knowledge, c->book.knowledge.at, c->book.knowledge.length);
    while (status == ENDED_WELL && partial) {
        status = x.id > c->all.count ? BOUND_PASSED : exchange_once(&x);
        if (status == ENDED_WELL && list_elements(HUB_IN_ANSWER, x.answer.at, x.answer.length, page, report) != HUB_DONE) {
            status = REFUSED;
        }
        if (status == ENDED_WELL) {
            mark(c, &x.answer, page);
            partial = hub_report_number(x.report, HUB_AT_PARTIAL) == 1;
        }
    }
    exchange_free(&x);
    free(page);
    return status;
}

/* ---- what is said */

static void say_id(const char *what, const uint8_t *bytes, const struct element *e) {
    struct exguid id = read_exguid(bytes + e->id);
    printf("%s: id %llu of ", what, (unsigned long long)id.number);
    say_hex(id.guid, 16);
    printf("\n");
}

/* One element of the store. */
static void compare(struct comparison *c, size_t position) {
    const struct element *e = &c->all.row[position];
    int lacks = book_find(&c->book, c->store.at, e) == NULL, comes = c->comes[position];
    if (book_has_same(&c->book, c->store.at, e)) {
        c->same++;
        return;
    }
    *(comes ? lacks ? &c->new_ones : &c->newer : lacks ? &c->lost : &c->stale) += 1;
    if (comes) {
        say_id(lacks ? "would still come" : "would still come, and the book has other bytes", c->store.at, e);
    } else {
        say_id(lacks ? "known, and the book lacks it" : "known, and the book has other bytes", c->store.at, e);
    }
}

/* One element of the book. */
static void look_for(struct comparison *c, const struct element *mine) {
    for (size_t i = 0; i < c->all.count; i++) {
        const struct element *e = &c->all.row[i];
        if (e->id_length == mine->id_length && memcmp(c->store.at + e->id, c->book.package.at + mine->id, e->id_length) == 0) {
            return;
        }
    }
    c->apart++;
    say_id("in the book alone", c->book.package.at, mine);
}

static void say_files(const struct comparison *c, const struct options *o) {
    printf("store %s: elements %zu, bytes %zu; book %s: elements %zu, bytes %zu, ", o->store, c->all.count, c->store.length,
           o->book, c->book.all.count, c->book.package.length);
    if (c->book.passed_over) {
        printf("and a knowledge that was not saved with this book and does not count\n");
    } else if (c->book.knowledge.length == 0) {
        printf("and no knowledge\n");
    } else {
        printf("ranges %zu\n", count_objects(c->book.knowledge.at, c->book.knowledge.length, RANGE));
    }
}

static int say_verdict(const struct comparison *c) {
    int in_step = c->lost + c->stale == 0;
    printf("%s: the same %zu; known, and lacking %zu, with other bytes %zu; still to come, and lacking %zu, with other bytes %zu; "
           "in the book alone %zu\n",
           in_step ? "in step" : "not in step", c->same, c->lost, c->stale, c->new_ones, c->newer, c->apart);
    return in_step ? ENDED_WELL : NOT_IN_STEP;
}

static int compare_all(struct comparison *c, const struct options *o) {
    int status = find_coming(c);
    if (status != ENDED_WELL) {
        return status;
    }
    say_files(c, o);
    for (size_t i = 0; i < c->all.count; i++) {
        compare(c, i);
    }
    for (size_t i = 0; i < c->book.all.count; i++) {
        look_for(c, &c->book.all.row[i]);
    }
    return say_verdict(c);
}

int check(const struct options *o) {
    struct comparison *c = memory(sizeof *c);
    memset(c, 0, sizeof *c);
    int status = store_read(o->store, &c->store, &c->all);
    if (status == ENDED_WELL) {
        status = book_open(&c->book, o->book);
    }
    if (status == ENDED_WELL && !c->book.there) {
        fprintf(stderr, "player: %s: there is no such book\n", o->book);
        status = CANNOT_OPEN;
    }
    if (status == ENDED_WELL) {
        status = compare_all(c, o);
    }
    book_free(&c->book);
    bytes_free(&c->store);
    free(c);
    return status;
}
