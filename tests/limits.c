/* hub_length and hub_write held to their limits: lengths, pages, whole talks, ranges, 2^64-1, inputs of 16,777,216 bytes and one
   more, reports, empty slices. Both are called with the same inputs, hub_length with as much offered as hub_write has for its
   output; offered.c tries every length. A line for each thing that is tried. `document 01` stands before the numbers that
   document 01 itself gives: those of 'Numbers to test', 512 ranges, what follows 2^64-1, the longest inputs, a report of 24 bytes.
   `beside it` stands before what is the project's own: room to spare and none, a padded number, which refusal comes first, other
   reports, null pointers. The exit status is 1 if a line is not ok. */
#include "../include/hub.h"
#include "build.h"
#include "damage.h"
#include "lent.h"
#include "limits.h"
#include "told.h"

#include <stdio.h>
#include <stdlib.h>
#include <string.h>

/* Whether hub_write with this much output sends the answer, and leaves alone all else; and hub_length tells its length. */
static int sends(struct text store, struct text request, size_t room, struct text answer) {
    struct lent out = lend(room), report = lend(HUB_REPORT_BYTES);
    struct result r = {HUB_DONE, 0, 0, answer.length};
    uint64_t got = hub_write(store.at, store.length, request.at, request.length, front_of(out), room, front_of(report),
                             HUB_REPORT_BYTES);
    int good = is_told(got, front_of(report), r) && kept_behind(report, HUB_REPORT_BYTES) && kept_behind(out, answer.length);
    good = good && memcmp(front_of(out), answer.at, answer.length) == 0 && length_told(store, request, room, r);
    give_back(out);
    give_back(report);
    return good;
}

static int refuses(struct text store, struct text request, size_t room, uint64_t number, uint64_t input, uint64_t place,
                   uint64_t needed) {
    struct result r = {number, input, place, needed};
    return answer_refused(store, request, room, r);
}

/* An answer with n elements from the one with this id and this serial number on. */
static struct text answer_of(unsigned id, uint64_t serial, unsigned n, unsigned partial, const struct range *r, size_t ranges) {
    struct text elements = {0}, answer = {0};
    add_elements(&elements, id, SERIALS, serial, n);
    add_answer(&answer, elements, partial, r, ranges);
    return answer;
}

/* ---- lengths */

static void lengths(void) {
    struct range seven[1] = {{SERIALS, 7, 7}};
    struct text none = store_of(7, 0), one = store_of(7, 1), request = request_of(NO_LIMIT, NULL, 0);
    struct text first = answer_of(1, 7, 0, 0, NULL, 0), second = answer_of(1, 7, 1, 0, seven, 1);
    paper("an empty store: 41 bytes", first.length == 41 && sends(none, request, 41, first));
    beside("with room to spare", sends(none, request, 42, first) && sends(none, request, 4096, first));
    paper("room for 40 is refused, needed 41", refuses(none, request, 40, HUB_OUTPUT_TOO_SHORT, 0, 0, 41));
    beside("no room at all too", refuses(none, request, 0, HUB_OUTPUT_TOO_SHORT, 0, 0, 41));
    paper("one element: 132 bytes", second.length == 132 && sends(one, request, 132, second));
    beside("room for 131 is refused, needed 132", refuses(one, request, 131, HUB_OUTPUT_TOO_SHORT, 0, 0, 132));
}

/* The type of one element in a longer form than it needs: at 47 in a store, at 64 in an answer. It goes out as it is stored. */
static void padding(void) {
    struct range seven[1] = {{SERIALS, 7, 7}};
    struct text one = store_of(7, 1), request = request_of(NO_LIMIT, NULL, 0), answer = answer_of(1, 7, 1, 0, seven, 1);
    struct text padded = put(one, 47, 0x01), sent = put(answer, 64, 0x01);
    beside("a padded type goes out as it is stored", sends(padded, request, 132, sent));
    free(one.at);
    free(request.at);
    free(answer.at);
    free(padded.at);
    free(sent.at);
}

/* ---- whole talks */

/* Asks with a knowledge of the first `known` of three elements, and awaits `page` more. */
static int one_ask(uint64_t limit, unsigned known, unsigned page) {
    struct range before[1] = {{SERIALS, 7, 6 + known}}, after[1] = {{SERIALS, 7, 6 + known + page}};
    unsigned sent = known + page;
    struct text store = store_of(7, 3), request = request_of(limit, before, known > 0);
    struct text answer = answer_of(1 + known, 7 + known, page, sent < 3, after, sent > 0);
    int good = sends(store, request, 4096, answer);
    free(store.at);
    free(request.at);
    free(answer.at);
    return good;
}

/* Asks until all three are sent, and once more. The answer's knowledge is what the next ask knows. */
static int talk(uint64_t limit, const unsigned *pages) {
    unsigned known = 0;
    int good = 1;
    while (known < 3) {
        good = good && one_ask(limit, known, *pages);
        known += *pages++;
    }
    return good && one_ask(limit, 3, 0);
}

static void talks(void) {
    static const unsigned singly[3] = {1, 1, 1}, two_first[2] = {2, 1}, at_once[1] = {3};
    paper("limit 0: pages of 1, 1, 1", talk(0, singly));
    paper("limit 46: pages of 1, 1, 1", talk(46, singly));
    paper("limit 91: pages of 1, 1, 1", talk(91, singly));
    paper("limit 92: pages of 2, 1", talk(92, two_first));
    paper("limit 137: pages of 2, 1", talk(137, two_first));
    paper("limit 138: a page of 3", talk(138, at_once));
    beside("limit 2^64-1: a page of 3", talk(NO_LIMIT, at_once));
}

/* ---- 512 ranges */

/* Every second number, so that no two ranges touch. */
static void spread(struct range *r, size_t n) {
    for (size_t i = 0; i < n; i++) {
        struct range x = {OTHERS, 2 * i, 2 * i};
        r[i] = x;
    }
}

static void many_ranges(void) {
    struct range known[513], after[513] = {{SERIALS, 7, 7}};
    spread(known, 513);
    spread(after + 1, 512);
    struct text none = store_of(7, 0), one = store_of(7, 1);
    struct text before = request_of(NO_LIMIT, known, 511), full = request_of(NO_LIMIT, known, 512);
    struct text over = request_of(NO_LIMIT, known, 513);
    struct text page = answer_of(1, 7, 1, 0, after, 512), same = answer_of(1, 7, 0, 0, known, 512);
    paper("a page of 1 with 512 ranges", sends(one, before, page.length, page));
    paper("a page of 1 that needs 513 ranges", refuses(one, full, 1 << 20, HUB_TOO_MANY, 0, 0, 0));
    beside("the same with no room", refuses(one, full, 0, HUB_TOO_MANY, 0, 0, 0));
    beside("512 ranges and nothing wanted", sends(none, full, same.length, same));
    beside("no room for them", refuses(none, full, same.length - 1, HUB_OUTPUT_TOO_SHORT, 0, 0, same.length));
    /* the 513th range stands before the four ends behind it: 1 + 2 + 1 + 2 + 2 bytes, and is 22 bytes long */
    paper("513 ranges known", refuses(one, over, 1 << 20, HUB_TOO_MANY, 1, over.length - 8 - 22, 0));
}

/* ---- 2^64-1 */

static void greatest(void) {
    struct range all[1] = {{SERIALS, 0, UINT64_MAX}}, below[1] = {{SERIALS, 0, UINT64_MAX - 1}};
    struct range last[1] = {{SERIALS, UINT64_MAX, UINT64_MAX}}, two[2] = {{SERIALS, 0, 0}, {SERIALS, UINT64_MAX, UINT64_MAX}};
    struct text top = store_of(UINT64_MAX, 1), zero = store_of(0, 1);
    struct text fresh = request_of(NO_LIMIT, NULL, 0), most = request_of(NO_LIMIT, below, 1);
    struct text every = request_of(NO_LIMIT, all, 1), end = request_of(NO_LIMIT, last, 1);
    beside("serial number 2^64-1", sends(top, fresh, 4096, answer_of(1, UINT64_MAX, 1, 0, last, 1)));
    beside("2^64-1 joined to all before", sends(top, most, 4096, answer_of(1, UINT64_MAX, 1, 0, all, 1)));
    beside("all numbers known", sends(top, every, 4096, answer_of(1, 0, 0, 0, all, 1)));
    paper("0 does not follow 2^64-1", sends(zero, end, 4096, answer_of(1, 0, 1, 0, two, 2)));
}

/* ---- the longest inputs */

static struct text long_request(size_t n) {
    struct text request = {0}, empty = request_of(NO_LIMIT, NULL, 0);
    add_request(&request, NO_LIMIT, NULL, 0, n - empty.length - 8);
    free(empty.at);
    return request;
}

static void longest_store(void) {
    struct text store = long_store(LONGEST), over = long_store(LONGEST + 1), noise = {0}, nothing = {0};
    struct text request = request_of(NO_LIMIT, NULL, 0), answer = long_answer(LONGEST);
    add_like(&noise, LONGEST + 1, 0xFF);
    beside("they are as long as they should be", store.length == LONGEST && over.length == LONGEST + 1);
    paper("a store of 16,777,216 bytes", sends(store, request, answer.length, answer));
    beside("no room for it", refuses(store, request, answer.length - 1, HUB_OUTPUT_TOO_SHORT, 0, 0, answer.length));
    paper("a store of 16,777,217 bytes", refuses(over, request, 4096, HUB_INPUT_TOO_LONG, 0, LONGEST, 0));
    beside("before the store's other faults", refuses(noise, request, 4096, HUB_INPUT_TOO_LONG, 0, LONGEST, 0));
    beside("and before the request's", refuses(over, nothing, 0, HUB_INPUT_TOO_LONG, 0, LONGEST, 0));
    beside("and before the request is too long", refuses(over, noise, 0, HUB_INPUT_TOO_LONG, 0, LONGEST, 0));
    free(store.at);
    free(over.at);
    free(noise.at);
    free(answer.at);
}

static void longest_request(void) {
    struct text request = long_request(LONGEST), over = long_request(LONGEST + 1), noise = {0}, nothing = {0};
    struct text store = store_of(7, 0), answer = answer_of(1, 7, 0, 0, NULL, 0);
    add_like(&noise, LONGEST + 1, 0xFF);
    beside("they are as long as they should be", request.length == LONGEST && over.length == LONGEST + 1);
    paper("a request of 16,777,216 bytes", sends(store, request, 41, answer));
    paper("a request of 16,777,217 bytes", refuses(store, over, 4096, HUB_INPUT_TOO_LONG, 1, LONGEST, 0));
    beside("before the request's other faults", refuses(store, noise, 0, HUB_INPUT_TOO_LONG, 1, LONGEST, 0));
    beside("and behind the store's", refuses(nothing, over, 4096, HUB_RUNS_PAST, 0, 0, 0));
    free(request.at);
    free(over.at);
    free(noise.at);
}

/* ---- reports, and empty slices */

/* Whether a report has in its first 24 bytes, if it has so many, that this length is the answer's or is needed for it, and is else
   as it was lent. */
static int has_length(struct lent report, uint64_t number, size_t length) {
    struct result r = {number, 0, 0, length};
    if (report.length < HUB_REPORT_BYTES) {
        return kept_behind(report, 0);
    }
    return kept_behind(report, HUB_REPORT_BYTES) && is_told(number, front_of(report), r);
}

/* Whether both calls take a report of this length so, and give the number and hub_write the output that they give with others. */
static int reported(struct text store, struct text request, size_t room, size_t length, struct text answer, uint64_t number) {
    struct lent out = lend(room), report = lend(length), asked = lend(length);
    uint64_t got = hub_write(store.at, store.length, request.at, request.length, front_of(out), room, front_of(report), length);
    uint64_t told = hub_length(store.at, store.length, request.at, request.length, room, front_of(asked), length);
    size_t written = number == 0 ? answer.length : 0;
    int good = got == number && told == number && kept_behind(out, written);
    good = good && has_length(report, number, answer.length) && has_length(asked, number, answer.length);
    good = good && (written == 0 || memcmp(front_of(out), answer.at, written) == 0);
    give_back(out);
    give_back(report);
    give_back(asked);
    return good;
}

/* An answer, and a refusal, with a report of this length. */
static int both_reported(size_t length) {
    struct text store = store_of(7, 0), request = request_of(NO_LIMIT, NULL, 0), answer = answer_of(1, 7, 0, 0, NULL, 0);
    int sent = reported(store, request, 64, length, answer, HUB_DONE);
    return sent && reported(store, request, 40, length, answer, HUB_OUTPUT_TOO_SHORT);
}

static void reports(void) {
    beside("no report", both_reported(0));
    beside("a report of 1 byte", both_reported(1));
    paper("a report of 23 bytes", both_reported(HUB_REPORT_BYTES - 1));
    paper("a report of 24 bytes", both_reported(HUB_REPORT_BYTES));
    beside("a report of 25 bytes", both_reported(HUB_REPORT_BYTES + 1));
    beside("a report of 40 bytes", both_reported(40));
}

static void empty_slices(void) {
    struct text nothing = {0}, store = store_of(7, 1), request = request_of(NO_LIMIT, NULL, 0);
    beside("four null pointers", hub_write(NULL, 0, NULL, 0, NULL, 0, NULL, 0) == HUB_RUNS_PAST);
    beside("three, and all that can be offered", hub_length(NULL, 0, NULL, 0, UINT64_MAX, NULL, 0) == HUB_RUNS_PAST);
    beside("no store", refuses(nothing, request, 4096, HUB_RUNS_PAST, 0, 0, 0));
    beside("no request", refuses(store, nothing, 4096, HUB_RUNS_PAST, 1, 0, 0));
    beside("no output", refuses(store, request, 0, HUB_OUTPUT_TOO_SHORT, 0, 0, 132));
}

int main(void) {
    lengths();
    padding();
    talks();
    many_ranges();
    greatest();
    longest_store();
    longest_request();
    reports();
    empty_slices();
    return ended();
}
