/* Whole ways of a put: a bench writes it by hub_ask_put, the hub takes it by hub_put, and the bench reads what was answered by
   hub_read_put; then the hub answers a query from the new store. The exit status is 1 if a line is not ok. */
#include "../include/hub.h"
#include "build.h"
#include "damage.h"
#include "limits.h"
#include "puts.h"

#include <stdio.h>
#include <stdlib.h>
#include <string.h>

#define PAPER 4096u /* room for a put, for a store, and for an answer */

/* The hub's store, and how the way went. */
struct way {
    uint8_t store[PAPER];
    size_t length;
    int good;
};

/* Hands in elements, if the store has the index with this id, 0 for none. What was answered is to have the id that was asked with,
   and as its knowledge these bytes, which are given up. */
static void hand_in(struct way *w, uint64_t id, unsigned expected, struct text elements, struct text known) {
    uint8_t request[PAPER], answer[PAPER], new_store[PAPER], report[HUB_PUT_REPORT_BYTES] = {0};
    w->good = w->good && hub_ask_put(id, expected, HALF_OF_IDS, HALF_OF_IDS, expected, elements.at, elements.length, request, PAPER,
                                     report, sizeof report) == HUB_DONE;
    size_t asked = (size_t)number_in(report + HUB_AT_LENGTH);
    w->good = w->good && hub_put(w->store, w->length, request, asked, HALF_OF_SERIALS, HALF_OF_SERIALS, new_store, PAPER, answer,
                                 PAPER, report, sizeof report) == HUB_DONE;
    size_t answered = (size_t)number_in(report + HUB_AT_LENGTH), length = (size_t)number_in(report + HUB_AT_STORE_LENGTH);
    w->good = w->good && hub_read_put(answer, answered, report, sizeof report) == HUB_DONE;
    w->good = w->good && number_in(report + HUB_AT_ID) == id && number_in(report + HUB_AT_LENGTH) == known.length;
    w->good = w->good && memcmp(answer + number_in(report + HUB_AT_PLACE), known.at, known.length) == 0;
    if (w->good) {
        memcpy(w->store, new_store, length);
        w->length = length;
    }
    free(known.at);
}

static int store_is(struct way *w, struct text store) {
    return w->good && w->length == store.length && memcmp(w->store, store.at, store.length) == 0;
}

/* A knowledge of the numbers from 1 to the first, and of those from the second to the third if there are any. */
static struct text numbers(uint64_t first, uint64_t second, uint64_t third) {
    struct range known[2] = {{SERIALS, 1, first}, {SERIALS, second, third}};
    struct text knowledge = {0};
    add_knowledge(&knowledge, known, third > 0 ? 2 : 1);
    return knowledge;
}

/* The type of the first element, which is made an index, stands at 44 of it and at 47 of a store. In the end the other two have the
   numbers 4 and 5, which stand 36 bytes behind their starts. */
static void ways(void) {
    struct way w = {{0xAC, 0x02, 0x00, 0x55}, 4, 1}; /* an empty store */
    struct text none = {0}, first = {0}, rest = {0}, one = put(store_of(1, 1), 47, 1 << 1 | 1);
    struct text three = put(store_of(1, 3), 47, 1 << 1 | 1), again = put(put(three, 3 + 46 + 36, 4), 3 + 92 + 36, 5);
    add_elements(&first, 1, OTHERS, 1000, 1);
    first.at[44] = 1 << 1 | 1;
    add_elements(&rest, 2, OTHERS, 1000, 2);
    hand_in(&w, 1, 0, first, numbers(1, 0, 0));
    beside("an index handed in", store_is(&w, one));
    hand_in(&w, 2, 1, rest, numbers(3, 0, 0));
    beside("two elements, where it is expected", store_is(&w, three));
    hand_in(&w, UINT64_MAX, 1, none, numbers(3, 0, 0));
    beside("nothing, which changes nothing", store_is(&w, three));
    hand_in(&w, 4, 1, rest, numbers(1, 4, 5));
    beside("the same two again, with new serial numbers", store_is(&w, again));
    free(first.at);
    free(rest.at);
    free(one.at);
    free(three.at);
    free(again.at);
}

/* The same by the hub's own answer to a query: what enters is sent, byte for byte as it was stored. */
static void sent_on(void) {
    struct range all[1] = {{SERIALS, 1, 2}};
    struct text none = store_of(1, 0), both = store_of(1, 2), query = plain_request(), answer = {0}, elements = {0};
    uint8_t out[PAPER], report[HUB_REPORT_BYTES];
    add_elements(&elements, 1, SERIALS, 1, 2);
    add_answer(&answer, elements, 0, all, 1);
    int good = enters(putting(none, put_of(1, 2)), both, told_from(1, 2));
    good = good && hub_write(both.at, both.length, query.at, query.length, out, PAPER, report, sizeof report) == HUB_DONE;
    good = good && number_in(report + HUB_AT_LENGTH) == answer.length && memcmp(out, answer.at, answer.length) == 0;
    beside("what entered is answered with", good);
}

int main(void) {
    ways();
    sent_on();
    return ended();
}
