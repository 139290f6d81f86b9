/* Both sides of every count and every depth that document 01 has, for each call that has to do with it: 256 elements and 257, 512
   ranges and entries and 513, 16 filters and 17, 64 ids in a filter and 65, 16 open objects and 17, in an answer that is read
   17 and 18. On the right side a call gives its result, on the other it refuses at the first one too many. What is 512 and 513
   for a page stands in limits.c. The exit status is 1 if a line is not ok. */
#include "../include/hub.h"
#include "build.h"
#include "damage.h"
#include "lent.h"
#include "limits.h"
#include "told.h"

#include <stdio.h>
#include <stdlib.h>
#include <string.h>

/* ---- each call's result on the right side */

/* Whether hub_write, with the room that always suffices, gives an answer of so many elements, all that the store has, whose
   knowledge is so many bytes long, and hub_length tells the length of that answer. */
static int answered(struct text store, struct text request, uint64_t elements, size_t knowledge) {
    struct lent out = lend(store.length + HUB_ANSWER_OVER_STORE), report = lend(HUB_REPORT_BYTES);
    uint8_t read[HUB_READ_REPORT_BYTES] = {0};
    struct text s = exact(store), q = exact(request);
    int good = hub_write(s.at, s.length, q.at, q.length, front_of(out), out.length, front_of(report), report.length) == 0;
    size_t length = good ? (size_t)hub_report_number(front_of(report), HUB_AT_LENGTH) : 0;
    struct result told = {HUB_DONE, 0, 0, length};
    good = good && length_told(store, request, out.length, told);
    good = good && kept_behind(out, length) && hub_read(front_of(out), length, read, sizeof read) == HUB_DONE;
    good = good && hub_report_number(read, HUB_AT_COUNT) == elements && hub_report_number(read, HUB_AT_PARTIAL) == 0;
    good = good && hub_report_number(read, HUB_AT_LENGTH) == knowledge;
    free(s.at);
    free(q.at);
    give_back(out);
    give_back(report);
    return good;
}

/* Whether hub_ask writes a request with what is handed in at 41, and 45 bytes around it. */
static int asked(struct text filters, struct text knowledge) {
    struct lent out = lend(45 + filters.length + knowledge.length), report = lend(HUB_REPORT_BYTES);
    struct text f = exact(filters), k = exact(knowledge);
    struct result r = {HUB_DONE, 0, 0, out.length};
    uint64_t got = hub_ask(1, HUB_NO_LIMIT, f.at, f.length, k.at, k.length, front_of(out), out.length, front_of(report),
                           report.length);
    int good = is_told(got, front_of(report), r) && kept_behind(out, out.length);
    good = good && (f.length == 0 || memcmp(front_of(out) + 41, f.at, f.length) == 0);
    good = good && (k.length == 0 || memcmp(front_of(out) + 41 + f.length, k.at, k.length) == 0);
    free(f.at);
    free(k.at);
    give_back(out);
    give_back(report);
    return good;
}

/* Whether hub_read takes an answer with so many elements. */
static int was_read(struct text answer, uint64_t elements) {
    uint8_t report[HUB_READ_REPORT_BYTES] = {0};
    struct text a = exact(answer);
    int good = hub_read(a.at, a.length, report, sizeof report) == HUB_DONE;
    free(a.at);
    return good && hub_report_number(report, HUB_AT_COUNT) == elements;
}

/* ---- what is handed in */

/* A knowledge of n entries, 27 bytes each, the first at its byte 24; every second one is a range of 0, 20 bytes, if that is asked
   for. All are of one number. */
static struct text entries(unsigned n, int ranges_too) {
    struct range one[1] = {{OTHERS, 0, 0}};
    struct text knowledge = {0}, within = {0}, other;
    add_knowledge(&knowledge, one, 1); /* its range stands at 24, and is 20 bytes long */
    for (unsigned i = 0; i < n; i++) {
        if (ranges_too && i % 2 == 1) {
            add_range(&within, one[0]);
        } else {
            add_entry(&within, OTHERS, 0);
        }
    }
    other = without(knowledge, 24, 20);
    free(knowledge.at);
    return with(other, 24, within);
}

static struct text filters_of(unsigned n) {
    struct text filters = {0};
    for (unsigned i = 0; i < n; i++) {
        add_filter(&filters, 1);
    }
    return filters;
}

static struct text ids_of(unsigned n) {
    struct text filter = {0};
    add_ids_filter(&filter, n);
    return filter;
}

/* A request with a part before the sub-request's end, at 41. */
static struct text request_with(struct text part) {
    return with(plain_request(), 41, exact(part));
}

/* ---- 256 elements */

static void elements(void) {
    struct range all[1] = {{SERIALS, 7, 262}};
    struct text store = many_store(256, 0), over = many_store(257, 0), empty = {0}, known = {0};
    add_knowledge(&empty, NULL, 0);
    add_knowledge(&known, all, 1);
    struct text request = plain_request(), answer = many_answer(256, 0, empty), over_answer = many_answer(257, 0, empty);
    struct result last = {HUB_DONE, 0, 3 + 255 * 47, 47}, last_sent = {HUB_DONE, 0, 20 + 255 * 47, 47};
    struct result past = refusal(HUB_TOO_MANY, 0, 3 + 256 * 47), past_sent = refusal(HUB_TOO_MANY, 0, 20 + 256 * 47);
    paper("256 elements answered", answered(store, request, 256, known.length));
    paper("257 elements", answer_refused(over, request, 1 << 17, past));
    paper("256 elements read", was_read(answer, 256));
    paper("257 elements read", read_refused(over_answer, past_sent));
    paper("the last of 256", finds(HUB_IN_STORE, store, 255, last) && finds(HUB_IN_ANSWER, answer, 255, last_sent));
    paper("none of 257", finds(HUB_IN_STORE, over, 0, past) && finds(HUB_IN_ANSWER, over_answer, 0, past_sent));
}

/* ---- 512 ranges and entries */

/* A knowledge that has one object too many at this byte of it is refused by each call that reads it. */
static int refused_by_all(struct text knowledge, uint64_t number, size_t at) {
    struct text none = {0}, store = store_of(7, 0), request = request_with(knowledge), answer = many_answer(0, 0, knowledge);
    int good = answer_refused(store, request, 4096, refusal(number, 1, 41 + at));
    good = good && ask_refused(none, knowledge, 1 << 17, refusal(number, 1, at));
    return good && read_refused(answer, refusal(number, 0, 34 + at));
}

/* And one that is right is taken by each; the answer's has one range of one number, 48 bytes. */
static int taken_by_all(struct text knowledge) {
    struct text none = {0}, store = store_of(7, 0), request = request_with(knowledge), answer = many_answer(0, 0, knowledge);
    return answered(store, request, 0, 48) && asked(none, knowledge) && was_read(answer, 0);
}

static void ranges_and_entries(void) {
    paper("512 ranges known", taken_by_all(same_ranges(512)));
    paper("513 ranges known", refused_by_all(same_ranges(513), HUB_TOO_MANY, 24 + 512 * 20));
    paper("512 entries known", taken_by_all(entries(512, 0)));
    paper("513 entries known", refused_by_all(entries(513, 0), HUB_TOO_MANY, 24 + 512 * 27));
    paper("512 ranges and entries known", taken_by_all(entries(512, 1)));
    paper("513 ranges and entries known", refused_by_all(entries(513, 1), HUB_TOO_MANY, 24 + 256 * (20 + 27)));
}

/* 511 ranges as long as they can be, of which no two touch, and an element's: 511 of 36 bytes and one of 20, and 28 around them. */
static void longest_knowledge(void) {
    static struct range r[511];
    struct text knowledge = {0}, store = store_of(7, 1);
    for (unsigned i = 0; i < 511; i++) {
        struct range x = {OTHERS, UINT64_MAX - 2 * (511 - i), UINT64_MAX - 2 * (511 - i)};
        r[i] = x;
    }
    add_knowledge(&knowledge, r, 511);
    beside("512 ranges in the room that always suffices", answered(store, request_with(knowledge), 1, 511 * 36 + 20 + 28));
}

/* ---- 16 filters, 64 ids */

static void filters_and_ids(void) {
    struct text none = {0}, store = store_of(7, 0);
    paper("16 filters", answered(store, request_with(filters_of(16)), 0, 3) && asked(filters_of(16), none));
    paper("17 filters", answer_refused(store, request_with(filters_of(17)), 4096, refusal(HUB_TOO_MANY, 1, 41 + 16 * 8)));
    paper("17 filters handed in", ask_refused(filters_of(17), none, 4096, refusal(HUB_TOO_MANY, 0, 16 * 8)));
    paper("64 ids", answered(store, request_with(ids_of(64)), 0, 3) && asked(ids_of(64), none));
    paper("65 ids", answer_refused(store, request_with(ids_of(65)), 4096, refusal(HUB_TOO_MANY, 1, 41 + 11 + 64 * 17)));
    paper("65 ids handed in", ask_refused(ids_of(65), none, 4096, refusal(HUB_TOO_MANY, 0, 11 + 64 * 17)));
}

/* ---- depth */

/* Outside an element stand the package and the element itself, in an answer the response too. Each start is 2 bytes. */
static void depth_of_elements(void) {
    struct text elements = {0}, answer = {0}, store = store_of(7, 1), request = plain_request();
    struct result found = {HUB_DONE, 0, 3, 46 + 14 * 3}, found_sent = {HUB_DONE, 0, 20, 46 + 14 * 3};
    struct result deep = refusal(HUB_TOO_DEEP, 0, 48 + 2 * 14), deep_sent = refusal(HUB_TOO_DEEP, 0, 65 + 2 * 14);
    add_elements(&elements, 1, SERIALS, 7, 1);
    add_answer(&answer, elements, 0, NULL, 0);
    paper("16 open in a store", answered(nested_at(store, 48, 14), request, 1, 48));
    paper("17 open in a store", answer_refused(nested_at(store, 48, 15), request, 4096, deep));
    paper("an element found with 16 open", finds(HUB_IN_STORE, nested_at(store, 48, 14), 0, found));
    paper("none with 17 open", finds(HUB_IN_STORE, nested_at(store, 48, 15), 0, deep));
    paper("17 open in an answer", was_read(nested_at(answer, 65, 14), 1));
    paper("18 open in an answer", read_refused(nested_at(answer, 65, 15), deep_sent));
    paper("an element found with 17 open", finds(HUB_IN_ANSWER, nested_at(answer, 65, 14), 0, found_sent));
    paper("none with 18 open", finds(HUB_IN_ANSWER, nested_at(answer, 65, 15), 0, deep_sent));
}

/* Outside a user agent's objects stand the request and the user agent; outside a knowledge's, the message and its part, the
   knowledge and the specialized knowledge. */
static void depth_of_messages(void) {
    struct text none = {0}, store = store_of(7, 0), request = plain_request();
    struct result deep_agent = refusal(HUB_TOO_DEEP, 1, 20 + 2 * 14), deep_known = refusal(HUB_TOO_DEEP, 1, 41 + 22 + 2 * 12);
    paper("16 open in a user agent", answered(store, nested_at(request, 20, 14), 0, 3));
    paper("17 open in a user agent", answer_refused(store, nested_at(request, 20, 15), 4096, deep_agent));
    paper("16 open in a knowledge", answered(store, request_with(other_knowledge(12)), 0, 3));
    paper("17 open in a knowledge", answer_refused(store, request_with(other_knowledge(13)), 4096, deep_known));
    paper("16 open in one handed in", asked(none, other_knowledge(12)));
    paper("17 open in one handed in", ask_refused(none, other_knowledge(13), 4096, refusal(HUB_TOO_DEEP, 1, 22 + 2 * 12)));
    paper("17 open in an answer's knowledge", was_read(many_answer(0, 0, other_knowledge(13)), 0));
    paper("18 open in it", read_refused(many_answer(0, 0, other_knowledge(14)), refusal(HUB_TOO_DEEP, 0, 34 + 22 + 2 * 13)));
}

int main(void) {
    elements();
    ranges_and_entries();
    longest_knowledge();
    filters_and_ids();
    depth_of_elements();
    depth_of_messages();
    return ended();
}
