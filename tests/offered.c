/* hub_length for every length that can be offered, and hub_write behind it. The store has six elements, and the request a
   knowledge with gaps that some of them close, so that the pages' lengths grow by unequal steps, the least of them 10 bytes: an
   element of 46 and a join that saves a range of 36. What is awaited is a table, counted by hand from the layouts of document 01,
   and the bytes of the six pages' answers, built from those layouts apart (build.h). For each limit and each length offered the
   number and the report are looked at, and into an output of exactly the told length the same page is to come; with a byte less
   the page before it, or 14; with a byte more the same again. Reports and inputs of every length are tried in limits.c, the
   refusals in refusals.c. The exit status is 1 if a line is not ok. */
#include "../include/hub.h"
#include "build.h"
#include "damage.h"
#include "lent.h"
#include "limits.h"
#include "told.h"

#include <stdio.h>
#include <stdlib.h>
#include <string.h>

#define BIG 0x2000000000000u /* 2^49: from here on a number takes 9 bytes, up to 127 it takes 1, up to 16,383 2 */
#define PAGES 6u
#define LAST 641u /* 64 past the largest page: the last length that is offered of every one */

/* ---- the store, the knowledge and the table */

/* Behind 18 bytes of start and GUID a range has its two numbers: 20 bytes, 21 with 128 in it, 36 from BIG on. */
static const struct range known[5] = {
    {SERIALS, 10, 19}, {SERIALS, 21, 29}, {SERIALS, 100, 127}, {SERIALS, BIG, BIG + 9}, {SERIALS, BIG + 11, BIG + 19}};

static const struct {
    uint8_t guid;
    uint64_t serial;
    size_t inside; /* bytes of an object inside, whose start has 2 */
} elements[PAGES] = {
    {SERIALS, 7, 0},          /* a new range */
    {SERIALS, BIG + 10, 0},   /* joins two, which saves 36 bytes */
    {SERIALS, 128, 0},        /* makes a range longer, and its last number too */
    {SERIALS, 20, 0},         /* joins two, which saves 20 */
    {SERIALS, BIG + 20, 100}, /* makes a range longer */
    {OTHERS, BIG, 0},         /* a new range under another GUID */
};

/* The page of 1, of 2 and so on. An answer with ranges has 41 + 25 bytes around the elements and the ranges. */
struct page {
    uint64_t length, stored; /* the answer's, and what its elements have in the store, to which the limit applies */
    size_t count;
    struct range ranges[6];
};

static const struct page pages[PAGES] = {
    {66 + 46 + 4 * 20 + 2 * 36, 46, 6,
     {{SERIALS, 7, 7}, {SERIALS, 10, 19}, {SERIALS, 21, 29}, {SERIALS, 100, 127}, {SERIALS, BIG, BIG + 9},
      {SERIALS, BIG + 11, BIG + 19}}},
    {264 + 10, 92, 5,
     {{SERIALS, 7, 7}, {SERIALS, 10, 19}, {SERIALS, 21, 29}, {SERIALS, 100, 127}, {SERIALS, BIG, BIG + 19}}},
    {274 + 47, 138, 5,
     {{SERIALS, 7, 7}, {SERIALS, 10, 19}, {SERIALS, 21, 29}, {SERIALS, 100, 128}, {SERIALS, BIG, BIG + 19}}},
    {321 + 26, 184, 4, {{SERIALS, 7, 7}, {SERIALS, 10, 29}, {SERIALS, 100, 128}, {SERIALS, BIG, BIG + 19}}},
    {347 + 148, 332, 4, {{SERIALS, 7, 7}, {SERIALS, 10, 29}, {SERIALS, 100, 128}, {SERIALS, BIG, BIG + 20}}},
    {495 + 82, 378, 5,
     {{SERIALS, 7, 7}, {SERIALS, 10, 29}, {SERIALS, 100, 128}, {SERIALS, BIG, BIG + 20}, {OTHERS, BIG, BIG}}},
};

/* Document 01: "The answer holds the greatest k such that every page of 1 to k is allowed, fits the output ..". */
static unsigned page_for(uint64_t limit, uint64_t room) {
    unsigned k = 0;
    while (k < PAGES && pages[k].length <= room && (k == 0 || pages[k].stored <= limit)) {
        k++;
    }
    return k;
}

/* What is told of a page, or of none: then the page of 1 is needed. */
static struct result told_of(unsigned k) {
    struct result r = {k == 0 ? HUB_OUTPUT_TOO_SHORT : HUB_DONE, 0, 0, pages[k == 0 ? 0 : k - 1].length};
    return r;
}

static struct text store, answers[PAGES];

static struct text first_elements(unsigned n) {
    struct text t = {0};
    for (unsigned i = 0; i < n; i++) {
        add_element(&t, i + 1, elements[i].guid, elements[i].serial, elements[i].inside);
    }
    return t;
}

static void build(void) {
    int good = 1;
    add_package(&store, first_elements(PAGES));
    for (unsigned i = 0; i < PAGES; i++) {
        add_answer(&answers[i], first_elements(i + 1), i + 1 < PAGES, pages[i].ranges, pages[i].count);
        good = good && answers[i].length == pages[i].length;
    }
    beside("the six answers are as long as the table says", good && pages[0].length == 264 && pages[PAGES - 1].length == 577);
}

/* ---- the two calls */

/* Whether hub_write, with so much output, writes these bytes and tells this result, and leaves all else alone. */
static int is_written(struct text from, struct text request, size_t room, struct text answer, struct result r) {
    struct lent out = lend(room), report = lend(HUB_REPORT_BYTES);
    uint64_t got = hub_write(from.at, from.length, request.at, request.length, front_of(out), room, front_of(report),
                             HUB_REPORT_BYTES);
    int good = is_told(got, front_of(report), r) && kept_behind(report, HUB_REPORT_BYTES) && kept_behind(out, answer.length);
    good = good && (answer.length == 0 || memcmp(front_of(out), answer.at, answer.length) == 0);
    give_back(out);
    give_back(report);
    return good;
}

static int page_written(struct text request, size_t room, unsigned k) {
    struct text nothing = {0};
    return is_written(store, request, room, k == 0 ? nothing : answers[k - 1], told_of(k));
}

/* What hub_length tells if so much is offered; hub_write with an output of so much, and of the told length, of one less and of one
   more. No page is a byte longer than another. */
static int offered(uint64_t limit, struct text request, size_t room) {
    unsigned k = page_for(limit, room);
    int good = length_told(store, request, room, told_of(k)) && page_written(request, room, k);
    if (k > 0) {
        size_t told = (size_t)pages[k - 1].length;
        good = good && page_written(request, told, k) && page_written(request, told - 1, k - 1);
        good = good && page_written(request, told + 1, k);
    }
    return good;
}

static struct text request_for(uint64_t limit) {
    return request_of(limit, known, sizeof known / sizeof *known);
}

static void every_length(uint64_t limit, unsigned most) {
    struct text request = request_for(limit);
    char what[128];
    int good = page_for(limit, LAST) == most;
    for (size_t room = 0; room <= LAST; room++) {
        good = good && offered(limit, request, room);
    }
    sprintf(what, "each length from 0 to %u offered, limit %llu: pages up to that of %u", LAST, (unsigned long long)limit, most);
    document_02(what, good);
    free(request.at);
}

static void six_elements(void) {
    static const uint64_t limits[] = {0, 46, 91, 92, 137, 138, 183, 184, 331, 332, 377, 378, NO_LIMIT};
    static const unsigned most[] = {1, 1, 1, 2, 2, 3, 3, 4, 4, 5, 5, 6, 6};
    for (size_t i = 0; i < sizeof limits / sizeof *limits; i++) {
        every_length(limits[i], most[i]);
    }
}

/* More than an output can have, and more than 32 bits: what is offered is no length of anything that is there. */
static void more_than_needed(void) {
    static const uint64_t lengths[] = {HUB_LARGEST_ANSWER, 0xFFFFFFFFu, 0x100000000u, 0x100000000u + 263, 0x8000000000000000u,
                                       0x8000000000000000u + 263, UINT64_MAX};
    struct text request = request_for(NO_LIMIT);
    int good = 1;
    for (size_t i = 0; i < sizeof lengths / sizeof *lengths; i++) {
        good = good && length_told(store, request, lengths[i], told_of(PAGES));
    }
    document_02("up to 2^64-1 offered: the length of all six", good);
    free(request.at);
}

/* ---- the lengths that document 01 gives */

/* Whether every length under the answer's is refused, with that needed, and every other one gets the answer. */
static int only_length(struct text from, struct text answer) {
    struct text request = plain_request(), nothing = {0};
    struct result short_of = {HUB_OUTPUT_TOO_SHORT, 0, 0, answer.length}, sent = {HUB_DONE, 0, 0, answer.length};
    int good = length_told(from, request, UINT64_MAX, sent);
    for (size_t room = 0; room < answer.length + 64; room++) {
        int fits = room >= answer.length;
        good = good && length_told(from, request, room, fits ? sent : short_of);
        good = good && is_written(from, request, room, fits ? answer : nothing, fits ? sent : short_of);
    }
    free(request.at);
    return good;
}

static void lengths_of_document_01(void) {
    struct range seven[1] = {{SERIALS, 7, 7}};
    struct text none = store_of(7, 0), one = store_of(7, 1), element = {0}, no_element = {0}, empty = {0}, answer = {0};
    add_elements(&element, 1, SERIALS, 7, 1);
    add_answer(&empty, no_element, 0, NULL, 0);
    add_answer(&answer, element, 0, seven, 1);
    paper("an empty store: 40 offered is refused, needed 41, and 41 is not", empty.length == 41 && only_length(none, empty));
    paper("one element: 131 is refused, needed 132, and 132 is not", answer.length == 132 && only_length(one, answer));
    free(none.at);
    free(one.at);
    free(empty.at);
    free(answer.at);
}

/* ---- faults come first, and hub_write decides again */

/* With nothing offered and with all that can be. */
static int refused_first(struct text from, struct text request, uint64_t number, uint64_t input, uint64_t place) {
    struct result r = refusal(number, input, place);
    return length_told(from, request, 0, r) && length_told(from, request, UINT64_MAX, r);
}

static void faults_first(void) {
    struct text request = request_for(0), short_store = cut(store, store.length - 1);
    struct text short_request = cut(request, request.length - 1), nothing = {0};
    struct text over = with(plain_request(), 41, same_ranges(513));
    size_t end = store.length - 1, request_end = request.length - 2; /* the request's own end has 2 bytes */
    beside("a fault of the store before 14", refused_first(short_store, request, HUB_RUNS_PAST, 0, end));
    beside("and before the request's", refused_first(short_store, short_request, HUB_RUNS_PAST, 0, end));
    beside("a fault of the request before 14", refused_first(store, short_request, HUB_RUNS_PAST, 1, request_end));
    beside("no store, no request", refused_first(nothing, nothing, HUB_RUNS_PAST, 0, 0));
    beside("513 ranges in the request before 14", refused_first(store, over, HUB_TOO_MANY, 1, 41 + 24 + 512 * 20));
    free(request.at);
    free(short_store.at);
    free(short_request.at);
    free(over.at);
}

/* The store becomes another between the two calls: what was told binds nobody. The one that has grown has an object of 100 bytes in
   its element, behind a start of 2. */
static void decides_again(void) {
    struct text one = store_of(7, 1), none = store_of(7, 0), element = {0}, grown = {0};
    struct text request = plain_request(), nothing = {0}, empty = {0}, no_element = {0};
    struct result told = {HUB_DONE, 0, 0, 132}, more = {HUB_OUTPUT_TOO_SHORT, 0, 0, 132 + 102}, less = {HUB_DONE, 0, 0, 41};
    add_element(&element, 1, SERIALS, 7, 100);
    add_package(&grown, element);
    add_answer(&empty, no_element, 0, NULL, 0);
    int good = length_told(one, request, HUB_LARGEST_ANSWER, told);
    document_02("an output of the told length, and a store that has grown", good && is_written(grown, request, 132, nothing, more));
    document_02("and one that has shrunk", good && is_written(none, request, 132, empty, less));
    free(one.at);
    free(none.at);
    free(grown.at);
    free(request.at);
    free(empty.at);
}

int main(void) {
    build();
    six_elements();
    more_than_needed();
    lengths_of_document_01();
    faults_first();
    decides_again();
    return ended();
}
