/* Puts and the answers to them, as 000 and document 02 lay them out, and what the three calls for puts give, held to what
   they should: the number, the report, and every byte of the buffers. What is handed in stands in blocks of exactly its length. */
#ifndef PUTS_H
#define PUTS_H

#include "../include/hub.h"
#include "build.h"
#include "lent.h"
#include "limits.h"
#include "told.h"

#include <stdlib.h>
#include <string.h>

#define HALF_OF_SERIALS 0x2222222222222222u /* SERIALS is the hub's GUID in these tests: its bytes 0 to 7, and 8 to 15 */
#define HALF_OF_IDS 0x1D1D1D1D1D1D1D1Du     /* so of the ids that add_id writes */
#define HALF_OF_OTHERS 0x7070707070707070u  /* and of the GUID that came with what enters */

/* ---- bytes */

/* A put with the id 1 up to its sub-request's end. The storage index that is expected is that with this id, null if it is 0; the
   one that is not used is null. */
static inline void add_put_front(struct text *t, unsigned expected) {
    struct text data = {0};
    add_message_front(t, 0, PUT);
    add_byte(&data, 0);
    if (expected > 0) {
        add_id(&data, expected);
    } else {
        add_byte(&data, 0);
    }
    add_byte(&data, 0);
    add_start(t, PUT_CHANGES, 0, data.length);
    add_text(t, &data);
}

/* A put of the elements' bytes, which are given up. With none of them and null expected it is 44 bytes long. */
static inline struct text put_around(unsigned expected, struct text elements) {
    struct text request = {0};
    add_put_front(&request, expected);
    add_end(&request, SUB_REQUEST);
    add_package(&request, elements);
    add_end(&request, REQUEST);
    return request;
}

/* A put of n elements whose ids count up from here; the serial numbers that come with them are another's. */
static inline struct text put_of(unsigned id, unsigned n) {
    struct text elements = {0};
    add_elements(&elements, id, OTHERS, 1000, n);
    return put_around(0, elements);
}

/* And of n elements of 47 bytes, and 3 more for each object nested inside them; the ids are those of many_store. */
static inline struct text many_put(unsigned n, unsigned nested) {
    struct text elements = {0};
    add_many_elements(&elements, OTHERS, 1000, n, nested);
    return put_around(0, elements);
}

/* A store of the elements' bytes, which are given up. */
static inline struct text store_around(struct text elements) {
    struct text store = {0};
    add_package(&store, elements);
    return store;
}

/* The answer to a put: 28 bytes, a knowledge of n ranges, 4 bytes. */
static inline struct text put_answer(const struct range *r, size_t n) {
    struct text none = {0}, answer = {0};
    add_answer_front(&answer, none, PUT);
    add_knowledge(&answer, r, n);
    add_answer_ends(&answer);
    return answer;
}

/* The answer that tells these serial numbers of the hub's GUID. */
static inline struct text told_from(uint64_t from, uint64_t to) {
    struct range known[1] = {{SERIALS, from, to}};
    return put_answer(known, 1);
}

/* An answer with this knowledge, at 28, which is given up. */
static inline struct text put_answer_with(struct text knowledge) {
    struct text none = {0}, answer = {0};
    add_answer_front(&answer, none, PUT);
    add_text(&answer, &knowledge);
    add_answer_ends(&answer);
    return answer;
}

/* ---- what is looked at behind a call */

/* Whether a buffer has these bytes first, and all others are as they were. */
static inline int has_only(struct lent l, struct text t) {
    return kept_behind(l, t.length) && (t.length == 0 || memcmp(front_of(l), t.at, t.length) == 0);
}

/* Whether a report has as much of the result as it has room for: three numbers from 24 bytes on, and without a refusal a fourth
   from 32 on. */
static inline int has_result(struct lent report, struct result r, uint64_t fourth) {
    size_t told = report.length < HUB_REPORT_BYTES ? 0 : HUB_REPORT_BYTES;
    if (r.number == HUB_DONE && report.length >= HUB_PUT_REPORT_BYTES) {
        told = HUB_PUT_REPORT_BYTES;
    }
    int good = kept_behind(report, told) && (told == 0 || is_told(r.number, front_of(report), r));
    return good && (told < HUB_PUT_REPORT_BYTES || number_in(front_of(report) + HUB_AT_STORE_LENGTH) == fourth);
}

/* ---- hub_put */

/* What it is handed. */
struct putting {
    struct text store, request;
    uint64_t low, high;
    size_t new_room, room, report;
};

/* With the hub's GUID, room for everything that can come of these, and a report of 32 bytes. */
static inline struct putting putting(struct text store, struct text request) {
    struct putting p = {store, request, HALF_OF_SERIALS, HALF_OF_SERIALS, 0, 1 << 15, HUB_PUT_REPORT_BYTES};
    p.new_room = store.length + request.length;
    return p;
}

static inline int put_gives(struct putting p, struct result r, struct text new_store, struct text answer) {
    struct lent new_bytes = lend(p.new_room), out = lend(p.room), report = lend(p.report);
    struct text s = exact(p.store), q = exact(p.request);
    uint64_t got = hub_put(s.at, s.length, q.at, q.length, p.low, p.high, front_of(new_bytes), new_bytes.length, front_of(out),
                           out.length, front_of(report), report.length);
    int good = got == r.number && has_only(new_bytes, new_store) && has_only(out, answer);
    good = good && has_result(report, r, new_store.length);
    free(s.at);
    free(q.at);
    give_back(new_bytes);
    give_back(out);
    give_back(report);
    return good;
}

/* Whether the put enters, with this new store and this answer. */
static inline int enters(struct putting p, struct text new_store, struct text answer) {
    struct result r = {HUB_DONE, 0, 0, answer.length};
    return put_gives(p, r, new_store, answer);
}

/* Whether it is refused with this result, and both buffers are as they were. */
static inline int put_refused(struct putting p, struct result r) {
    struct text none = {0};
    return put_gives(p, r, none, none);
}

/* Whether it is refused since a buffer is too short, which would have to be so long. */
static inline int put_needs(struct putting p, uint64_t length) {
    struct result r = {HUB_OUTPUT_TOO_SHORT, 0, 0, length};
    return put_refused(p, r);
}

/* ---- hub_ask_put */

/* What it is handed. */
struct put_asked {
    uint64_t id, named, low, high, number;
    struct text elements;
    size_t room, report;
};

/* The id 1, no storage index, and room for the put. */
static inline struct put_asked asking_put(struct text elements) {
    struct put_asked a = {1, 0, 0, 0, 0, elements, 0, HUB_PUT_REPORT_BYTES};
    a.room = elements.length + 128;
    return a;
}

static inline int ask_put_gives(struct put_asked a, struct result r, struct text request) {
    struct lent out = lend(a.room), report = lend(a.report);
    struct text e = exact(a.elements);
    uint64_t got = hub_ask_put(a.id, a.named, a.low, a.high, a.number, e.at, e.length, front_of(out), out.length, front_of(report),
                               report.length);
    size_t told = report.length < HUB_REPORT_BYTES ? 0 : HUB_REPORT_BYTES;
    int good = got == r.number && has_only(out, request) && kept_behind(report, told);
    good = good && (told == 0 || is_told(got, front_of(report), r));
    free(e.at);
    give_back(out);
    give_back(report);
    return good;
}

/* Whether this put is written. */
static inline int put_written(struct put_asked a, struct text request) {
    struct result r = {HUB_DONE, 0, 0, request.length};
    return ask_put_gives(a, r, request);
}

/* Whether none is, and the output is as it was. */
static inline int ask_put_refused(struct put_asked a, struct result r) {
    struct text none = {0};
    return ask_put_gives(a, r, none);
}

/* ---- hub_read_put */

/* Whether it gives this result, and without a refusal this id, in a report of this length. */
static inline int read_put_gives(struct text answer, size_t length, struct result r, uint64_t id) {
    struct lent report = lend(length);
    struct text a = exact(answer);
    uint64_t got = hub_read_put(a.at, a.length, front_of(report), report.length);
    int good = got == r.number && has_result(report, r, id);
    free(a.at);
    give_back(report);
    return good;
}

/* Whether it takes an answer with the id 1, whose knowledge stands at 28 and is so long. */
static inline int put_answer_read(struct text answer, uint64_t knowledge) {
    struct result r = {HUB_DONE, 0, 28, knowledge};
    return read_put_gives(answer, HUB_READ_PUT_REPORT_BYTES, r, 1);
}

static inline int read_put_refused(struct text answer, struct result r) {
    return read_put_gives(answer, HUB_READ_PUT_REPORT_BYTES, r, 0);
}

#endif
