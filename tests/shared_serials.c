/* Elements that share a serial number (document 02, Q-3), beside the pages that groups.c goes through: which serial numbers are equal,
   how many elements and ranges there may be, answers with groups that are read, and puts into stores with groups. The exit status
   is 1 if a line is not ok. */
#include "../include/hub.h"
#include "build.h"
#include "damage.h"
#include "limits.h"
#include "puts.h"
#include "ranked.h"
#include "told.h"

#include <stdio.h>
#include <stdlib.h>
#include <string.h>

/* ---- which serial numbers are equal */

/* How many elements the first answer under limit 0 has, and whether it is marked. */
static int page_has(struct text store, uint64_t count, uint64_t partial) {
    uint8_t out[4096], report[HUB_READ_REPORT_BYTES] = {0};
    struct text request = request_of(0, NULL, 0);
    int good = hub_write(store.at, store.length, request.at, request.length, out, sizeof out, report, sizeof report) == HUB_DONE;
    good = good && hub_read(out, (size_t)hub_report_number(report, HUB_AT_LENGTH), report, sizeof report) == HUB_DONE;
    free(request.at);
    return good && hub_report_number(report, HUB_AT_COUNT) == count && hub_report_number(report, HUB_AT_PARTIAL) == partial;
}

/* Two elements of 46 bytes with one serial number, whose 24 bytes of GUID and number stand 20 behind their starts. */
static void equal_serials(void) {
    struct text elements = {0};
    add_element(&elements, 1, SERIALS, 7, 0);
    add_element(&elements, 2, SERIALS, 7, 0);
    struct text pair = store_around(elements);
    int good = page_has(pair, 2, 0);
    for (unsigned bit = 0; bit < 24 * 8; bit++) {
        size_t at = 3 + 46 + 20 + bit / 8;
        struct text other = put(pair, at, pair.at[at] ^ 1u << bit % 8);
        good = good && page_has(other, 1, 1);
        free(other.at);
    }
    document_02("serial numbers that differ in one bit, of the GUID or of the number, are not equal", good);
    beside("an id seen before, with an equal serial number", answer_refused(put(pair, 3 + 46 + 2, 1 << 3 | 4), plain_request(), 4096,
                                                                            refusal(HUB_SEEN_BEFORE, 0, 3 + 46 + 2)));
    free(pair.at);
}

/* ---- how many there may be */

/* n elements in one group, none of them a storage index. */
static struct text one_group(unsigned n) {
    struct text elements = {0};
    for (unsigned i = 0; i < n; i++) {
        add_typed(&elements, i, 0, 2 + i % 10, 0);
    }
    return store_around(elements);
}

static void most_elements(void) {
    struct text most = one_group(256), too_many = one_group(257), request = plain_request();
    document_02("257 elements in one group are too many",
                answer_refused(too_many, request, 1 << 16, refusal(HUB_TOO_MANY, 0, most.length - 1)));
    free(most.at);
    free(too_many.at);
    free(request.at);
}

/* n ranges of one number each, of which no two touch, behind one of SERIALS that has the first group's. */
static void spread(struct range *r, unsigned n) {
    struct range first = {SERIALS, 7, 7};
    r[0] = first;
    for (unsigned i = 1; i <= n; i++) {
        struct range other = {OTHERS, 2 * i, 2 * i};
        r[i] = other;
    }
}

/* A group adds one range, however many members it has: it comes where 511 are known, and not where 512 are. */
static void most_ranges(void) {
    static struct range ranges[513];
    struct text elements = {0}, also = {0}, answer = {0};
    spread(ranges, 512);
    for (unsigned id = 1; id <= 3; id++) {
        add_element(&elements, id, SERIALS, 7, 0);
        add_element(&also, id, SERIALS, 7, 0);
    }
    struct text store = store_around(elements), known = request_of(0, ranges + 1, 511), more = request_of(0, ranges + 1, 512);
    add_answer(&answer, also, 0, ranges, 512);
    document_02("a group of three where 511 ranges are known: the 512th is its own", answer_comes(store, known, 1 << 16, answer));
    document_02("and where 512 are known, too many", answer_refused(store, more, 1 << 16, refusal(HUB_TOO_MANY, 0, 0)));
    free(store.at);
    free(known.at);
    free(more.at);
    free(answer.at);
}

/* ---- answers that are read */

/* Two elements that share a serial number, and a third, in an answer to a request. */
static struct text shared_answer(void) {
    struct range known[1] = {{SERIALS, 7, 8}};
    struct text elements = {0}, answer = {0};
    add_element(&elements, 1, SERIALS, 7, 0);
    add_element(&elements, 2, SERIALS, 8, 0);
    add_element(&elements, 3, SERIALS, 7, 0);
    add_answer(&answer, elements, 0, known, 1);
    return answer;
}

/* The first element at 20, the others 46 bytes behind one another; an id is 2 behind its element's start. */
static void answers_read(void) {
    struct text answer = shared_answer(), elements = {0}, front = {0}, known = {0};
    struct result last = {HUB_DONE, 0, 20 + 92, 46}, knowledge = {HUB_DONE, 0, 20 + 138 + 8, 3};
    uint8_t report[HUB_READ_REPORT_BYTES] = {0};
    int good = hub_read(answer.at, answer.length, report, sizeof report) == HUB_DONE;
    document_02("an answer with a group is read, its members apart", good && hub_report_number(report, HUB_AT_COUNT) == 3);
    document_02("and its elements are found", finds(HUB_IN_ANSWER, answer, 2, last));
    document_02("an id that comes twice with one serial number is 11",
                read_refused(put(answer, 20 + 92 + 2, 1 << 3 | 4), refusal(HUB_SEEN_BEFORE, 0, 20 + 92 + 2)));
    add(&elements, answer.at + 20, 138);
    add_answer_front(&front, elements, PUT);
    add_knowledge(&known, NULL, 0);
    add_text(&front, &known);
    add_answer_ends(&front);
    document_02("and a group in the answer to a put is read", read_put_gives(front, HUB_READ_PUT_REPORT_BYTES, knowledge, 1));
    free(answer.at);
    free(front.at);
}

/* Two answers, as of a hub that parts a group: nothing tells the bench that the first was not whole. */
static void parted(void) {
    struct range known[1] = {{SERIALS, 7, 7}};
    for (unsigned id = 1; id <= 2; id++) {
        struct text element = {0}, answer = {0};
        uint8_t report[HUB_READ_REPORT_BYTES] = {0};
        add_element(&element, id, SERIALS, 7, 0);
        add_answer(&answer, element, id == 1, known, 1);
        beside(id == 1 ? "of a group that another hub parts the first answer reads" : "and the second",
               hub_read(answer.at, answer.length, report, sizeof report) == HUB_DONE);
        free(answer.at);
    }
}

/* ---- puts */

/* Three elements, of which the first two share the number 7; the numbers are handed in, 0 for none. */
static struct text three(uint64_t first, uint64_t second, uint64_t fourth) {
    struct text elements = {0};
    add_element(&elements, 1, SERIALS, first, 0);
    add_element(&elements, 2, SERIALS, second, 0);
    add_element(&elements, 3, SERIALS, 9, 0);
    if (fourth > 0) {
        add_element(&elements, 4, SERIALS, fourth, 0);
    }
    return store_around(elements);
}

/* What enters gets numbers of its own; the answer has a number that two elements share once. */
static void put_to(void) {
    struct range two[2] = {{SERIALS, 7, 7}, {SERIALS, 9, 9}}, new_one[2] = {{SERIALS, 7, 7}, {SERIALS, 9, 10}};
    struct text store = three(7, 7, 0);
    document_02("a put of nothing into a store with a group", enters(putting(store, put_of(1, 0)), store, put_answer(two, 2)));
    document_02("of a new element", enters(putting(store, put_of(4, 1)), three(7, 7, 10), put_answer(new_one, 2)));
    document_02("of the second member, which leaves the group",
                enters(putting(store, put_of(2, 1)), three(7, 10, 0), put_answer(new_one, 2)));
    document_02("of the first member", enters(putting(store, put_of(1, 1)), three(10, 7, 0), put_answer(new_one, 2)));
    document_02("of both: each has a number of its own, and 7 is gone",
                enters(putting(store, put_of(1, 2)), three(10, 11, 0), told_from(9, 11)));
    struct text same = put(put_of(1, 2), 87 + 36, 1000 % 256); /* the numbers that come are equal */
    document_02("of both with one serial number", enters(putting(store, same), three(10, 11, 0), told_from(9, 11)));
}

/* 256 that share a number are told as one range, and the highest number is theirs. */
static void put_to_one_group(void) {
    struct range one[1] = {{SERIALS, FIRST_SERIAL, FIRST_SERIAL}};
    struct text most = one_group(256), last = {0};
    document_02("a put of nothing into 256 in one group", enters(putting(most, put_of(1, 0)), most, put_answer(one, 1)));
    add_element(&last, 1, SERIALS, UINT64_MAX, 0);
    add_element(&last, 2, SERIALS, UINT64_MAX, 0);
    struct text full = store_around(last);
    document_02("a group has the last number there is: of nothing",
                enters(putting(full, put_of(1, 0)), full, told_from(UINT64_MAX, UINT64_MAX)));
    document_02("and of one of its members", put_refused(putting(full, put_of(1, 1)), refusal(HUB_NO_SERIAL_LEFT, 0, 0)));
    free(most.at);
    free(full.at);
}

/* A bench that knew the group and the third element lacks exactly what entered: the member that was replaced, alone. */
static void wanted_behind(void) {
    struct range knew[2] = {{SERIALS, 7, 7}, {SERIALS, 9, 9}}, knows[2] = {{SERIALS, 7, 7}, {SERIALS, 9, 10}};
    struct text store = three(7, 10, 0), request = request_of(0, knew, 2), element = {0}, answer = {0};
    add_element(&element, 2, SERIALS, 10, 0);
    add_answer(&answer, element, 0, knows, 2);
    document_02("behind a put of a member it is wanted, and the rest of the group is not", answer_comes(store, request, 4096, answer));
    free(store.at);
    free(request.at);
    free(answer.at);
}

int main(void) {
    equal_serials();
    most_elements();
    most_ranges();
    answers_read();
    parted();
    put_to();
    put_to_one_group();
    wanted_behind();
    return ended();
}
