/* A bench that takes the elements out of each answer itself, by hub_element, and keeps no book, and a test of it: it knows nothing, talks with a
   hub about the three elements of document 01, and has them all after as many answers as document 01 says. The exit status is 1 if
   a line is not ok. */
#include "../include/hub.h"
#include "build.h"
#include "limits.h"

#include <stdio.h>
#include <stdlib.h>
#include <string.h>

static struct text came; /* the elements that came */
static uint64_t answers; /* and how many answers that took */

static void keep(const uint8_t *answer, size_t length, uint64_t count);

struct buffer {
    uint8_t *at;
    size_t room;
};

/* The next so many times there is no memory. */
static unsigned none_left;

/* How often memory was asked for. */
static uint64_t times;

/* Gives the buffer exactly so much room: 0, and the buffer as it was, if there is no memory. What it had is not kept, and does not
   stay where it was. */
static int lengthen(struct buffer *b, size_t room) {
    uint8_t *other = none_left > 0 && none_left-- > 0 ? NULL : malloc(room);
    times++;
    if (other == NULL) {
        return 0;
    }
    free(b->at);
    b->at = other;
    b->room = room;
    return 1;
}

/* Asks until an answer is unmarked: 256 times at most, as a store has no more elements and none comes twice. */
static uint64_t fetch(const uint8_t *store, size_t store_len, uint64_t limit, uint64_t offered, struct buffer *out) {
    uint8_t request[32768], report[HUB_READ_REPORT_BYTES], *knowledge = NULL;
    size_t known = 0;
    uint64_t number;
    for (uint64_t id = 1; id <= 256; id++) {
        number = hub_ask(id, limit, NULL, 0, knowledge, known, request, sizeof request, report, sizeof report);
        if (number != HUB_DONE) return number;
        size_t asked = hub_report_number(report, HUB_AT_LENGTH);
        number = hub_length(store, store_len, request, asked, offered, report, sizeof report);
        if (number != HUB_DONE) return number;
        size_t length = hub_report_number(report, HUB_AT_LENGTH);
        if (!lengthen(out, length)) return HUB_OUTPUT_TOO_SHORT; /* there is no memory */
        number = hub_write(store, store_len, request, asked, out->at, length, report, sizeof report);
        if (number != HUB_DONE) return number;
        number = hub_read(out->at, length, report, sizeof report);
        if (number != HUB_DONE) return number;
        if (hub_report_number(report, HUB_AT_ID) != id) return HUB_NOT_SERVED; /* an answer to another ask */
        keep(out->at, length, hub_report_number(report, HUB_AT_COUNT));
        if (hub_report_number(report, HUB_AT_PARTIAL) == 0) return HUB_DONE;
        knowledge = out->at + hub_report_number(report, HUB_AT_PLACE);
        known = hub_report_number(report, HUB_AT_LENGTH);
    }
    return HUB_TOO_MANY; /* not by a hub of this kind, with one store */
}

/* Adds each element of the answer, as hub_element finds it. */
static void keep(const uint8_t *answer, size_t length, uint64_t count) {
    uint8_t report[HUB_REPORT_BYTES];
    for (uint64_t i = 0; i < count; i++) {
        if (hub_element(HUB_IN_ANSWER, answer, length, i, report, sizeof report) == HUB_DONE) {
            add(&came, answer + hub_report_number(report, HUB_AT_PLACE), (size_t)hub_report_number(report, HUB_AT_LENGTH));
        }
    }
    answers++;
}

/* A talk of its own: nothing came yet. */
static uint64_t fetch_anew(struct text store, uint64_t limit, uint64_t offered, struct buffer *out) {
    came.length = 0;
    answers = times = 0;
    return fetch(store.at, store.length, limit, offered, out);
}

/* Whether a talk with so much offered for an answer brings all elements of the store, in its order and with its bytes, after so
   many answers, for each of which memory was asked for once. */
static int brings_all(unsigned elements, uint64_t limit, uint64_t offered, uint64_t awaited) {
    struct text store = store_of(7, elements);
    struct buffer out = {NULL, 0};
    int good = fetch_anew(store, limit, offered, &out) == HUB_DONE && answers == awaited && times == awaited;
    good = good && came.length == elements * 46 && (elements == 0 || memcmp(came.at, store.at + 3, came.length) == 0);
    free(out.at);
    free(store.at);
    return good;
}

/* Of two elements one is long, the second or the first, and each comes by itself: the buffer is another at the second answer,
   longer or shorter, and the knowledge that was asked with stood in the first. It has just the last answer's length; an object of
   1,000,000 bytes has a start of 4 and a true length of 3 before it. */
static int moves_midway(size_t first, size_t second) {
    struct text elements = {0}, store = {0};
    struct buffer out = {NULL, 0};
    add_element(&elements, 1, SERIALS, 7, first);
    add_element(&elements, 2, SERIALS, 8, second);
    add_package(&store, elements);
    int good = fetch_anew(store, 0, HUB_LARGEST_ANSWER, &out) == HUB_DONE && answers == 2 && times == 2;
    good = good && out.room == 132 + (second > 0 ? second + 7 : 0);
    good = good && came.length == store.length - 4 && memcmp(came.at, store.at + 3, came.length) == 0;
    free(out.at);
    free(store.at);
    return good;
}

/* A store without its last end: the hub's refusal comes back, and no memory was asked for. */
static int stops(void) {
    struct text store = store_of(7, 3);
    struct buffer out = {NULL, 0};
    store.length--;
    int good = fetch_anew(store, 0, HUB_LARGEST_ANSWER, &out) == HUB_RUNS_PAST && times == 0 && out.at == NULL;
    free(store.at);
    return good;
}

/* Less is offered than the smallest page needs: 14 comes back. */
static int offers_too_little(void) {
    struct text store = store_of(7, 3);
    struct buffer out = {NULL, 0};
    int good = fetch_anew(store, HUB_NO_LIMIT, 131, &out) == HUB_OUTPUT_TOO_SHORT && times == 0 && out.at == NULL;
    free(store.at);
    return good;
}

/* There is no memory once: 14 comes back, and the next talk with the same buffer is as it should be. */
static int goes_on_later(void) {
    struct text store = store_of(7, 3);
    struct buffer out = {NULL, 0};
    none_left = 1;
    int good = fetch_anew(store, 0, HUB_LARGEST_ANSWER, &out) == HUB_OUTPUT_TOO_SHORT && answers == 0;
    good = good && fetch_anew(store, 0, HUB_LARGEST_ANSWER, &out) == HUB_DONE && answers == 3 && came.length == 3 * 46;
    free(out.at);
    free(store.at);
    return good;
}

int main(void) {
    paper("limit 0: three answers", brings_all(3, 0, HUB_LARGEST_ANSWER, 3));
    paper("limit 91: three", brings_all(3, 91, HUB_LARGEST_ANSWER, 3));
    paper("limit 92: two", brings_all(3, 92, HUB_LARGEST_ANSWER, 2));
    paper("limit 138: one", brings_all(3, 138, HUB_LARGEST_ANSWER, 1));
    beside("just what the smallest page needs is offered: three", brings_all(3, 138, 132, 3));
    beside("a byte less than the page of two needs: three", brings_all(3, 138, 132 + 46 - 1, 3));
    beside("what the page of two needs: two", brings_all(3, 138, 132 + 46, 2));
    beside("an empty store: one", brings_all(0, HUB_NO_LIMIT, 41, 1));
    beside("the second of two answers is longer", moves_midway(0, 1000000));
    beside("and shorter", moves_midway(1000000, 0));
    beside("a refusal ends the talk", stops());
    beside("and so does too little that is offered", offers_too_little());
    beside("no memory ends it, and it can be begun again", goes_on_later());
    return ended();
}
