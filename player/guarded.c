/* hub_length, hub_write, hub_put and hub_keep on guarded buffers (guarded.h). */
#include "guarded.h"
#include "../include/hub.h"
#include "report.h"

#include <string.h>

#define MARGIN 64u
#define REPORT_LENT 40u /* more than is told, so that there is something behind it */

/* The pattern differs from place to place, so that a byte copied from elsewhere shows too. */
static uint8_t pattern(size_t i, unsigned which) {
    return (uint8_t)(0xA5u + which * 0x3Bu + i * 7u + i / 256u);
}

static void fill(struct bytes *b, size_t n, unsigned which) {
    bytes_lend(b, n + 2 * MARGIN);
    for (size_t i = 0; i < b->room; i++) {
        b->at[i] = pattern(i, which);
    }
}

/* Whether all is as it was filled but the n bytes behind the first margin. */
static int kept(const struct bytes *b, size_t n, unsigned which) {
    for (size_t i = 0; i < b->room; i++) {
        if ((i < MARGIN || i >= MARGIN + n) && b->at[i] != pattern(i, which)) {
            return 0;
        }
    }
    return 1;
}

/* What a call is handed beside its buffers, and their lengths. */
struct handed {
    const struct bytes *store, *request; /* of hub_keep book and answer */
    const uint64_t *guid;                /* the hub's, of hub_put; NULL of the others */
    size_t new_length;
    uint64_t out_length; /* of hub_length what is offered for an output, of hub_keep the length of the new book's buffer */
    enum { TELLS, WRITES, KEEPS } does; /* hub_length, hub_write or hub_put, hub_keep */
};

/* The first promise of one call that is not kept in what it tells. */
static const char *judged(const struct guarded *g, const struct handed *h) {
    if (g->number == 13 || g->number > (h->guid == NULL ? HUB_OUTPUT_TOO_SHORT : HUB_NO_SERIAL_LEFT)) {
        return "a number that is never returned";
    }
    if (g->input > 1) {
        return "an input that is neither 0 nor 1";
    }
    if (g->place > (g->input == 0 ? h->store->length : h->request->length)) {
        return "a place past the input";
    }
    if (g->number == HUB_DONE && (g->input != 0 || g->place != 0 || g->length > h->out_length)) {
        return "an answer whose report is none of an answer";
    }
    if (g->number == HUB_DONE && g->length > HUB_LARGEST_ANSWER) {
        return "an answer that is longer than any";
    }
    if (g->number == HUB_DONE && g->new_length > h->new_length) {
        return "a new store that is longer than its buffer";
    }
    if (g->number >= HUB_OUTPUT_TOO_SHORT && (g->input != 0 || g->place != 0)) {
        return "an item at fault where there is none";
    }
    if (g->number == HUB_OUTPUT_TOO_SHORT && g->length <= h->out_length && (h->guid == NULL || g->length <= h->new_length)) {
        return "a needed length that was there";
    }
    if (g->number != HUB_DONE && g->number != HUB_OUTPUT_TOO_SHORT && g->length != 0) {
        return "a length where there is none";
    }
    return NULL;
}

/* One buffer for each that a call writes to. */
struct buffers {
    struct bytes out, new_store, report;
};

/* Calls, and takes down what the report tells. */
static void call(struct guarded *g, const struct handed *h, const struct buffers *b) {
    uint8_t *out = b->out.at + MARGIN, *report = b->report.at + MARGIN;
    const struct bytes *store = h->store, *request = h->request;
    if (h->does == TELLS) {
        g->number = hub_length(store->at, store->length, request->at, request->length, h->out_length, report, REPORT_LENT);
    } else if (h->does == KEEPS) {
        g->number = hub_keep(store->at, store->length, request->at, request->length, out, (size_t)h->out_length, report,
                             REPORT_LENT);
    } else if (h->guid == NULL) {
        g->number = hub_write(store->at, store->length, request->at, request->length, out, (size_t)h->out_length, report,
                              REPORT_LENT);
    } else {
        g->number = hub_put(store->at, store->length, request->at, request->length, h->guid[0], h->guid[1],
                            b->new_store.at + MARGIN, h->new_length, out, (size_t)h->out_length, report, REPORT_LENT);
    }
    g->input = hub_report_number(report, HUB_AT_INPUT);
    g->place = hub_report_number(report, HUB_AT_PLACE);
    g->length = hub_report_number(report, HUB_AT_LENGTH);
    g->new_length = h->guid != NULL && g->number == HUB_DONE ? hub_report_number(report, HUB_AT_STORE_LENGTH) : 0;
}

/* The first promise that is not kept in the bytes. What is told is as it should be. */
static const char *touched(const struct guarded *g, const struct handed *h, const struct buffers *b, unsigned which) {
    int done = g->number == HUB_DONE;
    if (!kept(&b->report, done && h->guid != NULL ? HUB_PUT_REPORT_BYTES : HUB_REPORT_BYTES, which)) {
        return "a byte behind what is told of the report was changed";
    }
    if (!kept(&b->out, done && h->does != TELLS ? (size_t)g->length : 0, which)) {
        return done ? "a byte behind the answer was changed" : "the output of a refusal was changed";
    }
    if (!kept(&b->new_store, (size_t)g->new_length, which)) {
        return done ? "a byte behind the new store was changed" : "the new store's buffer of a refusal was changed";
    }
    return NULL;
}

static struct guarded call_once(const struct handed *h, unsigned which) {
    struct guarded g = {0, 0, 0, 0, 0, {NULL, 0, 0}, {NULL, 0, 0}, NULL};
    struct buffers b = {{NULL, 0, 0}, {NULL, 0, 0}, {NULL, 0, 0}};
    fill(&b.out, h->does != TELLS ? (size_t)h->out_length : 0, which);
    fill(&b.new_store, h->new_length, which);
    fill(&b.report, REPORT_LENT, which);
    call(&g, h, &b);
    g.broken = judged(&g, h);
    if (g.broken == NULL) {
        g.broken = touched(&g, h, &b, which);
    }
    if (g.broken == NULL && g.number == HUB_DONE && h->does != TELLS) {
        bytes_add(&g.answer, b.out.at + MARGIN, (size_t)g.length);
        bytes_add(&g.new_store, b.new_store.at + MARGIN, (size_t)g.new_length);
    }
    bytes_free(&b.out);
    bytes_free(&b.new_store);
    bytes_free(&b.report);
    return g;
}

static int same_content(const struct bytes *a, const struct bytes *b) {
    return a->length == b->length && (a->length == 0 || memcmp(a->at, b->at, a->length) == 0);
}

static int told_alike(const struct guarded *a, const struct guarded *b) {
    return a->number == b->number && a->input == b->input && a->place == b->place && a->length == b->length;
}

static int equal(const struct guarded *a, const struct guarded *b) {
    return told_alike(a, b) && same_content(&a->answer, &b->answer) && same_content(&a->new_store, &b->new_store);
}

/* Twice, and both alike. */
static struct guarded call_twice(const struct handed *h) {
    struct guarded first = call_once(h, 0), again = call_once(h, 1);
    if (first.broken == NULL) {
        first.broken = again.broken;
    }
    if (first.broken == NULL && !equal(&first, &again)) {
        first.broken = "equal inputs got another result";
    }
    bytes_free(&again.answer);
    bytes_free(&again.new_store);
    return first;
}

/* Whether another call tells the same; what it has besides is given back. */
static int tells_same(const struct guarded *g, const struct handed *h) {
    struct guarded other = call_once(h, 0);
    int same = other.broken == NULL && told_alike(g, &other);
    bytes_free(&other.answer);
    return same;
}

struct guarded guarded_length(const struct bytes *store, const struct bytes *request, uint64_t offered) {
    struct handed h = {store, request, NULL, 0, offered, TELLS};
    struct guarded g = call_twice(&h);
    struct handed exact = {store, request, NULL, 0, g.length, WRITES};
    if (g.broken == NULL && g.number == HUB_DONE && !tells_same(&g, &exact)) {
        g.broken = "hub_write does not fill an output of the length that hub_length told";
    }
    return g;
}

struct guarded guarded_write(const struct bytes *store, const struct bytes *request, size_t out_length) {
    struct handed h = {store, request, NULL, 0, out_length, WRITES}, length = {store, request, NULL, 0, out_length, TELLS};
    struct guarded g = call_twice(&h);
    if (g.broken == NULL && !tells_same(&g, &length)) {
        g.broken = "hub_length tells something else";
    }
    if (g.broken == NULL && g.number == HUB_DONE && hub_read(g.answer.at, g.answer.length, NULL, 0) != HUB_DONE) {
        g.broken = "an answer that hub_read does not take";
    }
    return g;
}

/* No store has so many elements: of one that is taken it is said that there is none at the position. */
static int is_taken(const struct bytes *store) {
    return hub_element(HUB_IN_STORE, store->at, store->length, UINT64_MAX, NULL, 0) == HUB_TOO_MANY;
}

struct guarded guarded_keep(const struct bytes *book, const struct bytes *answer, size_t new_length) {
    struct handed h = {book, answer, NULL, 0, new_length, KEEPS};
    struct guarded g = call_twice(&h);
    if (g.broken == NULL && g.number == HUB_DONE && !is_taken(&g.answer)) {
        g.broken = "a new book that is not taken as a store";
    }
    return g;
}

struct guarded guarded_put(const struct bytes *store, const struct bytes *put, const uint64_t *guid, size_t new_length,
                           size_t out_length) {
    struct handed h = {store, put, guid, new_length, out_length, WRITES};
    struct guarded g = call_twice(&h);
    if (g.broken != NULL || g.number != HUB_DONE) {
        return g;
    }
    if (hub_read_put(g.answer.at, g.answer.length, NULL, 0) != HUB_DONE) {
        g.broken = "an answer that hub_read_put does not take";
    }
    if (g.broken == NULL && !is_taken(&g.new_store)) {
        g.broken = "a new store that is not taken as a store";
    }
    return g;
}
