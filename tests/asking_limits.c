/* The calls of a bench held to their limits: requests of 16,777,216 bytes and one more, answers of 16,842,752 and one more, empty
   slices, and whole talks with the hub. A line for each thing that is tried. `document 01` stands before the numbers that
   document 01 itself gives: the longest inputs, and the pages of 'Numbers to test'. `beside it` stands before what is the
   project's own: the lengths of requests (docs/DECISIONS.md, D-71), one that is too long by itself (D-66), which refusal comes
   first, null pointers, other talks. The exit status is 1 if a line is not ok. */
#include "../include/hub.h"
#include "build.h"
#include "lent.h"
#include "limits.h"
#include "told.h"

#include <stdio.h>
#include <stdlib.h>
#include <string.h>

/* ---- what is handed in */

/* A knowledge of n bytes, over 2^21: one of another kind, that holds one plain object. 33 bytes are around the object's own. */
static void add_long_knowledge(struct text *t, size_t n) {
    add_start(t, KNOWLEDGE, 1, 0);
    add_start(t, SPECIALIZED, 1, 16);
    add_like(t, 16, 0x99);
    add_start(t, INSIDE, 0, n - 33);
    add_like(t, n - 33, 0x77);
    add_end(t, SPECIALIZED);
    add_end(t, KNOWLEDGE);
}

/* The request that a bench sends with the id 1: no constraint where there is no limit, filters and knowledge as they are
   handed in. */
static void add_ask(struct text *t, uint64_t limit, struct text filters, struct text knowledge) {
    add_request_front(t, 0);
    if (limit != NO_LIMIT) {
        add_constraint(t, limit);
    }
    add(t, filters.at, filters.length);
    add(t, knowledge.at, knowledge.length);
    add_request_ends(t);
}

/* ---- requests written */

/* The first input is too long, and: the request would be, which falls on no item. */
static const struct result too_long = {HUB_INPUT_TOO_LONG, 0, LONGEST, 0}, too_long_itself = {HUB_INPUT_TOO_LONG, 0, 0, 0};

/* Whether a request asked for with this much output gives the result, and leaves alone all else. Where it is written, it is to
   be the one that filters and knowledge make. */
static int asks(uint64_t limit, struct text filters, struct text knowledge, size_t room, struct result r) {
    struct lent out = lend(room), report = lend(HUB_REPORT_BYTES);
    struct text request = {0};
    uint64_t got = hub_ask(1, limit, filters.at, filters.length, knowledge.at, knowledge.length, front_of(out), room,
                           front_of(report), HUB_REPORT_BYTES);
    int good = is_told(got, front_of(report), r) && kept_behind(report, HUB_REPORT_BYTES);
    if (good && r.number == 0) {
        add_ask(&request, limit, filters, knowledge);
        good = request.length == r.length && memcmp(front_of(out), request.at, request.length) == 0;
    }
    good = good && kept_behind(out, request.length);
    free(request.at);
    give_back(out);
    give_back(report);
    return good;
}

static int writes(uint64_t limit, struct text filters, struct text knowledge, size_t room, size_t length) {
    struct result r = {HUB_DONE, 0, 0, length};
    return asks(limit, filters, knowledge, room, r);
}

static int needs(uint64_t limit, struct text filters, struct text knowledge, size_t room, size_t length) {
    struct result r = {HUB_OUTPUT_TOO_SHORT, 0, 0, length};
    return asks(limit, filters, knowledge, room, r);
}

static void requests_written(void) {
    struct text nothing = {0}, filter = {0}, empty = {0};
    add_filter(&filter, 1);
    add_knowledge(&empty, NULL, 0);
    beside("a request with nothing in it: 45 bytes", writes(NO_LIMIT, nothing, nothing, 45, 45));
    beside("with room to spare", writes(NO_LIMIT, nothing, nothing, 46, 45) && writes(NO_LIMIT, nothing, nothing, 4096, 45));
    beside("room for 44 is refused, needed 45", needs(NO_LIMIT, nothing, nothing, 44, 45));
    beside("no room at all too", needs(NO_LIMIT, nothing, nothing, 0, 45));
    beside("a constraint: 5 bytes more", writes(0, nothing, nothing, 50, 50) && needs(0, nothing, nothing, 49, 50));
    beside("the greatest constraint: 13", writes(UINT64_MAX - 1, nothing, nothing, 58, 58));
    beside("a filter: 8 bytes, a knowledge: 3", writes(NO_LIMIT, filter, empty, 56, 56));
    beside("room for 55 is refused, needed 56", needs(NO_LIMIT, filter, empty, 55, 56));
}

/* The longest knowledge with which a request is not too long: 45 bytes are around it. */
static void longest_request_written(void) {
    struct text nothing = {0}, fits = {0}, over = {0}, fault = {0};
    add_long_knowledge(&fits, LONGEST - 45);
    add_long_knowledge(&over, LONGEST - 44);
    add_long_knowledge(&fault, LONGEST - 44);
    add_byte(&fault, 0);
    struct result left_over = {HUB_WRONG_LAYOUT, 1, LONGEST - 44, 0};
    beside("they are as long as they should be", fits.length == LONGEST - 45 && over.length == LONGEST - 44);
    beside("a request of 16,777,216 bytes written", writes(NO_LIMIT, nothing, fits, LONGEST, LONGEST));
    beside("no room for it", needs(NO_LIMIT, nothing, fits, LONGEST - 1, LONGEST));
    beside("a request of 16,777,217 bytes", asks(NO_LIMIT, nothing, over, LONGEST + 1, too_long_itself));
    beside("and with no room", asks(NO_LIMIT, nothing, over, 0, too_long_itself));
    beside("a constraint makes it too long", asks(0, nothing, fits, LONGEST + 5, too_long_itself));
    beside("the knowledge's faults come before", asks(NO_LIMIT, nothing, fault, LONGEST + 5, left_over));
    free(fits.at);
    free(over.at);
    free(fault.at);
}

/* Filters of that length have a fault, as 16 of them cannot be so long; a knowledge of it makes the request too long. */
static void longest_parts(void) {
    struct text nothing = {0}, noise = {0}, more_noise = {0}, fits = {0}, over = {0};
    struct result wrong_end = {HUB_WRONG_END, 0, 0, 0}, second = {HUB_INPUT_TOO_LONG, 1, LONGEST, 0};
    add_like(&noise, LONGEST, 0xFF);
    add_like(&more_noise, LONGEST + 1, 0xFF);
    add_long_knowledge(&fits, LONGEST);
    add_long_knowledge(&over, LONGEST + 1);
    paper("filters of 16,777,216 bytes", asks(NO_LIMIT, noise, nothing, 4096, wrong_end));
    paper("filters of 16,777,217 bytes", asks(NO_LIMIT, more_noise, nothing, 4096, too_long));
    beside("before the knowledge is too long", asks(NO_LIMIT, noise, over, 0, wrong_end));
    beside("and both too long", asks(NO_LIMIT, more_noise, over, 0, too_long));
    beside("a knowledge of 16,777,216 bytes", asks(NO_LIMIT, nothing, fits, 4096, too_long_itself));
    paper("a knowledge of 16,777,217 bytes", asks(NO_LIMIT, nothing, over, 4096, second));
    beside("before the knowledge's other faults", asks(NO_LIMIT, nothing, more_noise, 0, second));
    free(noise.at);
    free(more_noise.at);
    free(fits.at);
    free(over.at);
}

/* ---- answers read */

/* Whether an answer is read, and the report then has these numbers: knowledge, id, mark, elements, and storage index. */
static int reads(struct text answer, const uint64_t *eleven) {
    struct lent report = lend(HUB_READ_REPORT_BYTES);
    int good = hub_read(answer.at, answer.length, front_of(report), HUB_READ_REPORT_BYTES) == HUB_DONE;
    for (size_t i = 0; i < 11; i++) {
        good = good && number_in(front_of(report) + 8 * i) == eleven[i];
    }
    good = good && kept_behind(report, HUB_READ_REPORT_BYTES);
    give_back(report);
    return good;
}

/* An answer of exactly n bytes. The ends behind its knowledge are 4 bytes, the knowledge is 48, and before its one element are
   20 and behind it 14. */
static void longest_answer(void) {
    size_t n = HUB_LONGEST_ANSWER_READ;
    struct text answer = long_answer(n - 82), over = long_answer(n - 81), noise = {0};
    uint64_t read[11] = {0, n - 52, 48, 1, 0, 20, 1, 0, 0, 0, 0};
    struct result found = {HUB_DONE, 0, 20, n - 86};
    struct result past = {HUB_INPUT_TOO_LONG, 0, n, 0}, none = {HUB_TOO_MANY, 0, 0, 0};
    add_like(&noise, n + 1, 0xFF);
    beside("they are as long as they should be", answer.length == n && over.length == n + 1);
    paper("an answer of 16,842,752 bytes", reads(answer, read));
    beside("its element", finds(HUB_IN_ANSWER, answer, 0, found) && finds(HUB_IN_ANSWER, answer, 1, none));
    paper("an answer of 16,842,753 bytes", read_refused(over, past) && finds(HUB_IN_ANSWER, over, 0, past));
    beside("before the answer's other faults", read_refused(noise, past) && finds(HUB_IN_ANSWER, noise, 1, past));
    beside("as a store it is too long", finds(HUB_IN_STORE, answer, 0, too_long));
    free(answer.at);
    free(over.at);
    free(noise.at);
}

static void longest_store_found(void) {
    struct text store = long_store(LONGEST), over = long_store(LONGEST + 1);
    struct result found = {HUB_DONE, 0, 3, LONGEST - 4};
    paper("the element of a store of 16,777,216 bytes", finds(HUB_IN_STORE, store, 0, found));
    paper("of a store of 16,777,217 bytes", finds(HUB_IN_STORE, over, 0, too_long));
    free(store.at);
    free(over.at);
}

static void nothing_handed_in(void) {
    beside("a request, and four null pointers", hub_ask(1, 0, NULL, 0, NULL, 0, NULL, 0, NULL, 0) == HUB_OUTPUT_TOO_SHORT);
    beside("an answer, and two null pointers", hub_read(NULL, 0, NULL, 0) == HUB_RUNS_PAST);
    beside("an element of a store, and two null pointers", hub_element(HUB_IN_STORE, NULL, 0, 0, NULL, 0) == HUB_RUNS_PAST);
    beside("and of an answer", hub_element(HUB_IN_ANSWER, NULL, 0, 0, NULL, 0) == HUB_RUNS_PAST);
}

/* ---- whole talks of a bench with a hub */

#define PAPER 4096u /* room for a request, and for an answer */

/* A talk under way: the store, what is asked each time, the knowledge that came last, how many of the store's bytes came, and
   how many answers. */
struct talk {
    struct text store, filters, knowledge;
    uint64_t limit;
    size_t room, came;
    unsigned answers;
    int good, more;
};

/* Whether so many bytes from a place lie within an answer. */
static int within(size_t length, uint64_t place, uint64_t n) {
    return place <= length && n <= length - place;
}

/* Each element that an answer carries is to be the store's next, and to stand behind the one before it. */
static void take_elements(struct talk *t, const uint8_t *answer, size_t length, uint64_t next, uint64_t count) {
    uint8_t report[HUB_REPORT_BYTES] = {0};
    for (uint64_t i = 0; t->good && i < count; i++) {
        t->good = hub_element(HUB_IN_ANSWER, answer, length, i, report, sizeof report) == HUB_DONE;
        uint64_t place = number_in(report + HUB_AT_PLACE), n = number_in(report + HUB_AT_LENGTH);
        t->good = t->good && place == next && within(length, place, n) && n <= t->store.length - t->came;
        t->good = t->good && memcmp(answer + place, t->store.at + t->came, (size_t)n) == 0;
        t->came += t->good ? (size_t)n : 0;
        next += n;
    }
}

/* What came in an answer: the id that was asked with, elements, the knowledge to send back, and whether there is more. */
static void take_answer(struct talk *t, const uint8_t *answer, size_t length) {
    uint8_t report[HUB_READ_REPORT_BYTES] = {0};
    t->good = hub_read(answer, length, report, sizeof report) == HUB_DONE && number_in(report + HUB_AT_ID) == t->answers;
    uint64_t place = number_in(report + HUB_AT_PLACE), n = number_in(report + HUB_AT_LENGTH);
    t->good = t->good && within(length, place, n);
    if (!t->good) {
        return;
    }
    t->more = number_in(report + HUB_AT_PARTIAL) == 1;
    take_elements(t, answer, length, number_in(report + HUB_AT_ELEMENTS), number_in(report + HUB_AT_COUNT));
    t->knowledge.length = 0;
    add(&t->knowledge, answer + place, (size_t)n);
}

static void one_turn(struct talk *t) {
    uint8_t request[PAPER], answer[PAPER], report[HUB_REPORT_BYTES];
    t->answers++;
    t->good = hub_ask(t->answers, t->limit, t->filters.at, t->filters.length, t->knowledge.at, t->knowledge.length, request,
                      PAPER, report, sizeof report) == HUB_DONE;
    size_t asked = t->good ? (size_t)number_in(report + HUB_AT_LENGTH) : 0;
    t->good = t->good && hub_write(t->store.at, t->store.length, request, asked, answer, t->room, report, sizeof report) == 0;
    if (t->good) {
        take_answer(t, answer, (size_t)number_in(report + HUB_AT_LENGTH));
    }
}

/* Asks until an answer is unmarked, and holds that to so many answers. Then all elements have come, or none if a filter puts
   them out; the package's first 3 bytes and its last are no element's. */
static int held(unsigned elements, uint64_t limit, size_t room, struct text filters, unsigned answers) {
    struct talk t = {store_of(7, elements), filters, {0}, limit, room, 3, 0, 1, 1};
    while (t.good && t.more && t.answers < 40) {
        one_turn(&t);
    }
    size_t all = filters.length > 0 ? 3 : t.store.length - 1;
    int good = t.good && !t.more && t.answers == answers && t.came == all;
    free(t.store.at);
    free(t.knowledge.at);
    return good;
}

static void talks_held(void) {
    struct text none = {0}, out = {0};
    add_filter(&out, 0);
    paper("a talk with limit 0: three answers", held(3, 0, PAPER, none, 3));
    paper("with limit 46: three", held(3, 46, PAPER, none, 3));
    paper("with limit 91: three", held(3, 91, PAPER, none, 3));
    paper("with limit 92: two", held(3, 92, PAPER, none, 2));
    paper("with limit 137: two", held(3, 137, PAPER, none, 2));
    paper("with limit 138: one", held(3, 138, PAPER, none, 1));
    beside("without a constraint: one", held(3, HUB_NO_LIMIT, PAPER, none, 1));
    beside("about no element: one", held(0, HUB_NO_LIMIT, PAPER, none, 1));
    beside("with all put out: one", held(3, 0, PAPER, out, 1));
    beside("about 31 elements, limit 0: 31", held(31, 0, PAPER, none, 31));
    beside("limit 184: eight", held(31, 184, PAPER, none, 8));
    beside("room for two at a time: sixteen", held(31, HUB_NO_LIMIT, 132 + 46, none, 16));
}

int main(void) {
    requests_written();
    longest_request_written();
    longest_parts();
    longest_answer();
    longest_store_found();
    nothing_handed_in();
    talks_held();
    return ended();
}
