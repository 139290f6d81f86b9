/* Books and answers, and what hub_keep gives, held to what it should: the number, the report, and every byte of the new book's
   buffer. What is handed in stands in blocks of exactly its length. */
#ifndef KEEPS_H
#define KEEPS_H

#include "../include/hub.h"
#include "build.h"
#include "lent.h"
#include "limits.h"
#include "told.h"

#include <stdlib.h>
#include <string.h>

/* ---- bytes */

/* A book of the elements' bytes, which are given up. */
static inline struct text book_around(struct text elements) {
    struct text book = {0};
    add_package(&book, elements);
    return book;
}

/* An answer with the elements' bytes, which are given up, and an empty knowledge: 20 bytes, the elements, 21 bytes. */
static inline struct text answer_around(struct text elements) {
    struct text answer = {0};
    add_answer(&answer, elements, 0, NULL, 0);
    return answer;
}

/* An answer with n elements whose ids and serial numbers count up from here. */
static inline struct text answer_of(unsigned id, uint64_t serial, unsigned n) {
    struct text elements = {0};
    add_elements(&elements, id, SERIALS, serial, n);
    return answer_around(elements);
}

/* ---- hub_keep */

/* What it is handed. */
struct keeping {
    struct text book, answer;
    size_t room, report;
};

/* With room for as many bytes as both have, which always suffices, and a report of 24 bytes. */
static inline struct keeping keeping(struct text book, struct text answer) {
    struct keeping k = {book, answer, 0, HUB_REPORT_BYTES};
    k.room = book.length + answer.length;
    return k;
}

static inline int keep_gives(struct keeping k, struct result r, struct text new_book) {
    struct lent room = lend(k.room), report = lend(k.report);
    struct text b = exact(k.book), a = exact(k.answer);
    uint64_t got = hub_keep(b.at, b.length, a.at, a.length, front_of(room), room.length, front_of(report), report.length);
    size_t told = report.length < HUB_REPORT_BYTES ? 0 : HUB_REPORT_BYTES;
    int good = got == r.number && kept_behind(report, told) && (told == 0 || is_told(got, front_of(report), r));
    good = good && kept_behind(room, new_book.length);
    good = good && (new_book.length == 0 || memcmp(front_of(room), new_book.at, new_book.length) == 0);
    good = good && same_bytes(b, k.book) && same_bytes(a, k.answer);
    free(b.at);
    free(a.at);
    give_back(room);
    give_back(report);
    return good;
}

/* Whether the answer is kept, with this new book. */
static inline int keeps(struct keeping k, struct text new_book) {
    struct result r = {HUB_DONE, 0, 0, new_book.length};
    return keep_gives(k, r, new_book);
}

/* Whether it is refused with this result, and the buffer is as it was. */
static inline int keep_refused(struct keeping k, struct result r) {
    struct text none = {0};
    return keep_gives(k, r, none);
}

/* Whether it is refused since the buffer is too short, which would have to be so long. */
static inline int keep_needs(struct keeping k, uint64_t length) {
    struct result r = {HUB_OUTPUT_TOO_SHORT, 0, 0, length};
    return keep_refused(k, r);
}

#endif
