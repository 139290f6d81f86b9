/* Every refusal that hub_ask_put and hub_read_put can give, provoked: its number, the input, the place and the needed length, with
   the output left alone. The places are counted by hand from the layouts; a comment beside a group says where its parts stand.
   Lengths at their limits are tried in put_asking.c, counts and depths in put_counts.c. The exit status is 1 if a line is not
   ok. */
#include "../include/hub.h"
#include "build.h"
#include "damage.h"
#include "faults.h"
#include "limits.h"
#include "puts.h"
#include "told.h"

#include <stdio.h>
#include <stdlib.h>

/* A bit for each number that was given as it should be, by each call. */
static unsigned asked = 0, was_read = 0;

/* ---- puts written */

static void elements_refused(const char *what, struct text elements, uint64_t number, uint64_t place) {
    provoked(&asked, what, number, ask_put_refused(asking_put(elements), refusal(number, 0, place)));
    free(elements.at);
}

/* Of two elements of 46 bytes: the first's id at 2, its serial number at 19, its type at 44, its end at 45; the second at 46, its
   id at 48. The byte 0x01 is a padded 0. */
static void of_the_elements(void) {
    struct text one = {0}, two = {0}, many = {0}, long_input = {0}, zero = {0};
    add_elements(&one, 1, OTHERS, 1000, 1);
    add_elements(&two, 1, OTHERS, 1000, 2);
    add_many_elements(&many, OTHERS, 1000, 257, 0);
    add_like(&long_input, LONGEST + 1, 0x0C);
    add_byte(&zero, 0);
    elements_refused("elements of 16,777,217 bytes", long_input, HUB_INPUT_TOO_LONG, LONGEST);
    elements_refused("elements without the last end", cut(two, 91), HUB_RUNS_PAST, 91);
    elements_refused("an element cut within its id", cut(two, 60), HUB_RUNS_PAST, 48);
    elements_refused("half a header", zero, HUB_RUNS_PAST, 0);
    elements_refused("an id in no form", put(one, 2, 0x01), HUB_NO_FORM, 2);
    elements_refused("a serial number in no form", put(one, 19, 0x01), HUB_NO_FORM, 19);
    elements_refused("a padded type", put(one, 44, 0x01), HUB_NO_FORM, 44);
    elements_refused("an element ended by another's end", put(one, 45, 0x09), HUB_WRONG_END, 45);
    elements_refused("an element's end behind the last", put_behind(two, 0x05), HUB_WRONG_END, 92);
    elements_refused("the package's end behind the last", put_behind(two, 0x55), HUB_WRONG_LAYOUT, 92);
    elements_refused("a store in place of its elements", store_of(7, 1), HUB_WRONG_LAYOUT, 0);
    elements_refused("17 open in an element", nested_at(one, 45, 14), HUB_TOO_DEEP, 45 + 2 * 13);
    elements_refused("257 elements", many, HUB_TOO_MANY, 256 * 47);
    elements_refused("an element with a null id", null_id(one, 0), HUB_NULL_NAME, 2);
    elements_refused("an id that was seen before", put(two, 48, 1 << 3 | 4), HUB_SEEN_BEFORE, 48);
    free(one.at);
    free(two.at);
}

/* What falls on no item: a number over 32 bits, which comes before all else if an index is named, and the output. */
static void of_what_is_expected(void) {
    struct text elements = {0}, fault = {0}, long_input = {0}, none = {0};
    struct result no_form = refusal(HUB_NO_FORM, 0, 0), short_by_one = {HUB_OUTPUT_TOO_SHORT, 0, 0, 90};
    add_elements(&elements, 1, OTHERS, 1000, 1);
    add_like(&fault, 10, 0xFF);
    add_like(&long_input, LONGEST + 1, 0x0C);
    struct put_asked a = asking_put(elements);
    a.named = 1;
    a.number = (uint64_t)1 << 32;
    provoked(&asked, "a number of 33 bits", HUB_NO_FORM, ask_put_refused(a, no_form));
    a.number = UINT64_MAX;
    a.named = UINT64_MAX;
    provoked(&asked, "2^64-1", HUB_NO_FORM, ask_put_refused(a, no_form));
    a.elements = fault;
    beside("before the elements' faults", ask_put_refused(a, no_form));
    a.elements = long_input;
    beside("before they are too long", ask_put_refused(a, no_form));
    a.elements = none;
    a.room = 0;
    beside("before no room", ask_put_refused(a, no_form));
    struct put_asked b = asking_put(elements), c = b;
    b.room = 89;
    c.room = 0;
    provoked(&asked, "an output one byte too short, and none", HUB_OUTPUT_TOO_SHORT,
             ask_put_refused(b, short_by_one) && ask_put_refused(c, short_by_one));
    b.elements = c.elements = fault;
    beside("an element's fault before no room", ask_put_refused(c, refusal(HUB_WRONG_END, 0, 0)));
}

/* ---- answers read */

static void answer_refused_read(const char *what, struct text answer, uint64_t number, uint64_t place) {
    provoked(&was_read, what, number, read_put_refused(answer, refusal(number, 0, place)));
    free(answer.at);
}

/* Version 0 and 2, signature 4, response 12, its status 16, package 17, elements 20, package's end 20; sub-response 21, id 25, type
   26, status 27; knowledge 28, its range at 52, from 70 and to 71, ends 72, 73, 75, 76 and 78; 80 bytes. */
static void of_the_answer(void) {
    struct text answer = told_from(3, 3), query = {0}, none = {0}, long_input = {0}, changes = {0};
    add_answer(&query, none, 0, NULL, 0);
    add_start(&changes, CHANGES, 0, 2);
    add_le(&changes, 2, 0);
    add_like(&long_input, (size_t)HUB_LONGEST_ANSWER_READ + 1, 0x0C);
    answer_refused_read("an answer of 16,842,753 bytes", long_input, HUB_INPUT_TOO_LONG, HUB_LONGEST_ANSWER_READ);
    answer_refused_read("no answer", cut(answer, 0), HUB_RUNS_PAST, 0);
    answer_refused_read("an answer without its last end", cut(answer, 78), HUB_RUNS_PAST, 78);
    answer_refused_read("a package ended by another's end", put(answer, 20, 0x59), HUB_WRONG_END, 20);
    answer_refused_read("a response that failed", put(answer, 16, 0x01), HUB_WRONG_LAYOUT, 16);
    answer_refused_read("a sub-response that failed", put(answer, 27, 0x01), HUB_WRONG_LAYOUT, 27);
    answer_refused_read("no package", without(answer, 17, 4), HUB_WRONG_LAYOUT, 17);
    answer_refused_read("no knowledge", without(answer, 28, 48), HUB_WRONG_LAYOUT, 28);
    answer_refused_read("0x5F before the knowledge", with(answer, 28, changes), HUB_WRONG_LAYOUT, 28);
    answer_refused_read("a byte behind the answer", put_behind(answer, 0x00), HUB_WRONG_LAYOUT, 80);
    answer_refused_read("version 11", put(answer, 0, 11), HUB_WRONG_VERSION, 0);
    answer_refused_read("minimum version 13", put(answer, 2, 13), HUB_WRONG_VERSION, 2);
    answer_refused_read("a put's signature", put(answer, 4, 0x9C), HUB_WRONG_VERSION, 4);
    answer_refused_read("the answer to a query", query, HUB_NOT_SERVED, 26);
    answer_refused_read("a sub-response of a padded type", put(answer, 26, 0x01), HUB_NOT_SERVED, 26);
    answer_refused_read("a range from 3 to 2", put(answer, 71, 0x05), HUB_FROM_ABOVE_TO, 71);
    beside("and the answer to a put is none to a query", read_refused(answer, refusal(HUB_NOT_SERVED, 0, 26)));
    free(answer.at);
}

/* Elements that another hub sends are judged, at 20: id 22, serial number 39, type 64, end 65; the second at 66: id
   68. */
static void of_its_elements(void) {
    struct text one = {0}, two = {0}, many = {0}, elements = {0}, pair = {0}, others = {0}, ends = {0}, known = {0};
    add_elements(&elements, 1, SERIALS, 7, 1);
    add_elements(&pair, 1, SERIALS, 7, 2);
    add_many_elements(&others, SERIALS, 7, 257, 0);
    add_knowledge(&known, NULL, 0);
    add_answer_front(&one, elements, PUT);
    add_answer_front(&two, pair, PUT);
    add_answer_front(&many, others, PUT);
    add_answer_ends(&ends);
    add(&one, known.at, known.length);
    add(&one, ends.at, ends.length);
    answer_refused_read("an id in no form", put(one, 22, 0x01), HUB_NO_FORM, 22);
    answer_refused_read("an element with a null id", null_id(one, 20), HUB_NULL_NAME, 22);
    answer_refused_read("an element with a null serial number", null_serial(one, 20), HUB_NULL_NAME, 39);
    answer_refused_read("an id that was seen before", put(two, 68, 0x0C), HUB_SEEN_BEFORE, 68);
    answer_refused_read("18 open in an element", nested_at(one, 65, 15), HUB_TOO_DEEP, 65 + 2 * 14);
    answer_refused_read("257 elements", many, HUB_TOO_MANY, 20 + 256 * 47);
    struct result read = {HUB_DONE, 0, 28 + 46, 3};
    beside("elements that are right", read_put_gives(one, HUB_READ_PUT_REPORT_BYTES, read, 1));
    free(one.at);
    free(two.at);
    free(known.at);
    free(ends.at);
}

int main(void) {
    unsigned never_asked = 1u << HUB_WRONG_VERSION | 1u << HUB_NOT_SERVED | 1u << HUB_FROM_ABOVE_TO;
    of_the_elements();
    of_what_is_expected();
    of_the_answer();
    of_its_elements();
    beside("hub_ask_put gave each of its numbers", asked == (EVERY_NUMBER & ~never_asked));
    beside("hub_read_put gave each of its numbers", was_read == (EVERY_NUMBER & ~(1u << HUB_OUTPUT_TOO_SHORT)));
    return ended();
}
