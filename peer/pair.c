/* The two calls that answer a request, held to each other (pair.h). */
#include "pair.h"
#include "lend.h"

#include <string.h>

static struct block out_blocks[2], report_block;

void begin_pairs(size_t longest, size_t longest_report) {
    out_blocks[0] = new_block(longest);
    out_blocks[1] = new_block(longest);
    report_block = new_block(longest_report);
}

/* Whether a call that was lent a report as long as the case's left in it what the case's call left, and nothing before it. */
static int same_report(const struct one_case *c, const struct handed *h) {
    return same_bytes(lent(report_block, c->report), h->report, c->report) && kept_before(report_block, c->report);
}

static const char *length_differs(const struct side *side, const struct one_case *c, uint64_t number, const struct handed *h) {
    uint8_t *report = lend_filled(report_block, c->report);
    if (side->length(h->first, c->first.length, h->second, c->second.length, c->room, report, c->report) != number) {
        return "the call for the length gives another number than the one that writes";
    }
    return same_report(c, h) ? NULL : "the call for the length gives another report than the one that writes";
}

static uint64_t offered_by(const struct one_case *c) {
    return c->call == LENGTH ? c->offered : c->room;
}

/* The length that is told. The report of the case may be too short for it. */
static uint64_t told_length(const struct side *side, const struct one_case *c, const struct handed *h) {
    uint8_t report[HUB_REPORT_BYTES];
    memset(report, 0xFF, sizeof report);
    side->length(h->first, c->first.length, h->second, c->second.length, offered_by(c), report, sizeof report);
    return hub_report_number(report, HUB_AT_LENGTH);
}

/* An answer in an output of exactly the length that was told. */
struct exact {
    uint8_t *out;
    size_t length;
};

static const char *exact_differs(const struct side *side, const struct one_case *c, const struct handed *h, struct block b,
                                 struct exact *e) {
    uint64_t length = told_length(side, c, h);
    uint8_t *report = lend_filled(report_block, c->report);
    if (length > offered_by(c) || length > b.room) {
        return "a length is told that is longer than what is offered";
    }
    e->length = (size_t)length;
    e->out = lend_filled(b, e->length);
    if (side->write(h->first, c->first.length, h->second, c->second.length, e->out, e->length, report, c->report) != 0) {
        return "into exactly the told length nothing is written";
    }
    if (!same_report(c, h) || !kept_before(b, e->length)) {
        return "what is told of an output of exactly the told length is something else";
    }
    if (c->call == WRITE && !same_bytes(e->out, h->out, e->length)) {
        return "into exactly the told length something else is written";
    }
    return NULL;
}

static const char *side_differs(unsigned who, const struct one_case *c, uint64_t number, const struct handed *h, struct exact *e) {
    const char *what = c->call == WRITE ? length_differs(&sides[who], c, number, h) : NULL;
    if (what == NULL && number == 0) {
        what = exact_differs(&sides[who], c, h, out_blocks[who], e);
    }
    if (what != NULL) {
        printf("%s: ", who == 0 ? "library" : "peer");
    }
    return what;
}

const char *pair_differs(const struct one_case *c, uint64_t number, const struct handed *h) {
    struct exact e[2] = {{NULL, 0}, {NULL, 0}};
    unsigned who;
    for (who = 0; who < 2; who++) {
        const char *what = side_differs(who, c, number, &h[who], &e[who]);
        if (what != NULL) {
            return what;
        }
    }
    if (e[0].length != e[1].length || !same_bytes(e[0].out, e[1].out, e[0].length)) {
        return "the outputs of exactly the told length differ";
    }
    if (!same_bytes(h[0].first, c->first.at, c->first.length) || !same_bytes(h[0].second, c->second.at, c->second.length)) {
        return "an input is changed";
    }
    return NULL;
}
