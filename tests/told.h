/* What a call of hub.h tells, held to what it should: its number and the three numbers of its report. What is handed in stands in
   blocks of exactly its length, with a null pointer where there is nothing. Whatever the call may not write is looked at. */
#ifndef TOLD_H
#define TOLD_H

#include "../include/hub.h"
#include "build.h"
#include "lent.h"

#include <stdlib.h>
#include <string.h>

/* What a call returns, and the three numbers of its report. */
struct result {
    uint64_t number, input, place, length;
};

static inline struct result refusal(uint64_t number, uint64_t input, uint64_t place) {
    struct result r = {number, input, place, 0};
    return r;
}

static inline int is_told(uint64_t got, const uint8_t *report, struct result r) {
    int right = hub_report_number(report, HUB_AT_INPUT) == r.input && hub_report_number(report, HUB_AT_PLACE) == r.place;
    return right && hub_report_number(report, HUB_AT_LENGTH) == r.length && got == r.number;
}

/* The same bytes in a block of exactly their length. */
static inline struct text exact(struct text t) {
    struct text e = {NULL, t.length, t.length};
    if (t.length > 0) {
        e.at = room_for(t.length);
        memcpy(e.at, t.at, t.length);
    }
    return e;
}

static inline int same_bytes(struct text t, struct text other) {
    return t.length == other.length && (t.length == 0 || memcmp(t.at, other.at, t.length) == 0);
}

/* Whether hub_length tells this result for so much offered, and writes nothing but the report's three numbers. */
static inline int length_told(struct text store, struct text request, uint64_t offered, struct result r) {
    struct lent report = lend(HUB_REPORT_BYTES);
    struct text s = exact(store), q = exact(request);
    uint64_t got = hub_length(s.at, s.length, q.at, q.length, offered, front_of(report), HUB_REPORT_BYTES);
    int good = is_told(got, front_of(report), r) && kept_behind(report, HUB_REPORT_BYTES);
    good = good && same_bytes(s, store) && same_bytes(q, request);
    free(s.at);
    free(q.at);
    give_back(report);
    return good;
}

/* Whether hub_length tells this answer's length for so much offered, and hub_write writes exactly this answer into so much. */
static inline int answer_comes(struct text store, struct text request, size_t room, struct text answer) {
    struct lent out = lend(room), report = lend(HUB_REPORT_BYTES);
    struct text s = exact(store), q = exact(request);
    struct result sent = {HUB_DONE, 0, 0, answer.length};
    uint64_t got = hub_write(s.at, s.length, q.at, q.length, front_of(out), room, front_of(report), HUB_REPORT_BYTES);
    int good = is_told(got, front_of(report), sent) && kept_behind(report, HUB_REPORT_BYTES);
    good = good && kept_behind(out, answer.length) && memcmp(front_of(out), answer.at, answer.length) == 0;
    good = good && length_told(store, request, room, sent);
    free(s.at);
    free(q.at);
    give_back(out);
    give_back(report);
    return good;
}

/* Whether hub_write refuses with this result, and leaves the output alone; and hub_length too, with so much offered. */
static inline int answer_refused(struct text store, struct text request, size_t room, struct result r) {
    struct lent out = lend(room), report = lend(HUB_REPORT_BYTES);
    struct text s = exact(store), q = exact(request);
    uint64_t got = hub_write(s.at, s.length, q.at, q.length, front_of(out), room, front_of(report), HUB_REPORT_BYTES);
    int good = is_told(got, front_of(report), r) && kept_behind(report, HUB_REPORT_BYTES) && kept_behind(out, 0);
    good = good && length_told(store, request, room, r);
    free(s.at);
    free(q.at);
    give_back(out);
    give_back(report);
    return good;
}

/* Whether hub_ask, with the id 1, refuses with this result, and leaves the output alone. */
static inline int ask_refused(struct text filters, struct text knowledge, size_t room, struct result r) {
    struct lent out = lend(room), report = lend(HUB_REPORT_BYTES);
    struct text f = exact(filters), k = exact(knowledge);
    uint64_t got = hub_ask(1, HUB_NO_LIMIT, f.at, f.length, k.at, k.length, front_of(out), room, front_of(report),
                           HUB_REPORT_BYTES);
    int good = is_told(got, front_of(report), r) && kept_behind(report, HUB_REPORT_BYTES) && kept_behind(out, 0);
    free(f.at);
    free(k.at);
    give_back(out);
    give_back(report);
    return good;
}

/* Whether hub_read refuses with this result, in a report that has room for all that could come. */
static inline int read_refused(struct text answer, struct result r) {
    struct lent report = lend(HUB_READ_REPORT_BYTES);
    struct text a = exact(answer);
    uint64_t got = hub_read(a.at, a.length, front_of(report), HUB_READ_REPORT_BYTES);
    int good = is_told(got, front_of(report), r) && kept_behind(report, HUB_REPORT_BYTES);
    free(a.at);
    give_back(report);
    return good;
}

/* Whether hub_element finds or refuses with this result. */
static inline int finds(uint64_t kind, struct text bytes, uint64_t position, struct result r) {
    struct lent report = lend(HUB_REPORT_BYTES);
    struct text b = exact(bytes);
    uint64_t got = hub_element(kind, b.at, b.length, position, front_of(report), HUB_REPORT_BYTES);
    int good = is_told(got, front_of(report), r) && kept_behind(report, HUB_REPORT_BYTES);
    free(b.at);
    give_back(report);
    return good;
}

#endif
