/* Every refusal of hub_put, provoked: its number, the input, the place and the needed length, with both buffers left alone; and of
   two refusals whose reasons hold at once the one that comes first. The places are counted by hand from the layouts; a comment
   beside a group says where its parts stand. The store's faults stand in faults.h. Lengths, counts and serial numbers at their
   limits are tried in put_limits.c and put_counts.c. The exit status is 1 if a line is not ok. */
#include "../include/hub.h"
#include "build.h"
#include "damage.h"
#include "faults.h"
#include "limits.h"
#include "puts.h"
#include "told.h"

#include <stdio.h>
#include <stdlib.h>

static unsigned seen = 0; /* a bit for each number that was given as it should be */

#define EVERY_PUT_NUMBER (EVERY_NUMBER | 1u << HUB_OTHER_INDEX | 1u << HUB_NO_SERIAL_LEFT)

/* The store is at fault, and the put is not. */
static void store_refused(const char *what, struct text store, uint64_t number, uint64_t place) {
    struct text request = put_of(2, 1);
    provoked(&seen, what, number, put_refused(putting(store, request), refusal(number, 0, place)));
    free(request.at);
    free(store.at);
}

/* The put is at fault, and the store is not. */
static void request_refused(const char *what, struct text request, uint64_t number, uint64_t place) {
    struct text store = store_of(7, 1);
    provoked(&seen, what, number, put_refused(putting(store, request), refusal(number, 1, place)));
    free(store.at);
    free(request.at);
}

/* ---- the put's faults */

/* Version 0 and 2, signature 4, request 12, user agent 16, its end 20, sub-request 22, its id 26, its type 27, its priority 28,
   0x5A 29, storage index 33, the one that is expected 34, flags 35, sub-request's end 36; package 38, its byte 40, elements 41,
   ends 41 and 42; 44 bytes. The byte 0x01 is a padded 0. */
static void of_the_request(void) {
    struct text request = put_of(2, 0), query = plain_request(), nothing = {0}, long_input = {0};
    add_like(&long_input, LONGEST + 1, 0x0C);
    request_refused("a put of 16,777,217 bytes", long_input, HUB_INPUT_TOO_LONG, LONGEST);
    request_refused("no put", nothing, HUB_RUNS_PAST, 0);
    request_refused("a put without its last end", cut(request, 42), HUB_RUNS_PAST, 42);
    request_refused("a padded id of the sub-request", put(request, 26, 0x01), HUB_NO_FORM, 26);
    request_refused("a padded type, which is another too", put(request, 27, 0x01), HUB_NO_FORM, 27);
    request_refused("a padded priority", put(request, 28, 0x01), HUB_NO_FORM, 28);
    request_refused("a user agent ended by another's end", put(request, 20, 0x7B), HUB_WRONG_END, 20);
    request_refused("no sub-request", without(request, 22, 16), HUB_WRONG_LAYOUT, 22);
    request_refused("a byte behind the put", put_behind(request, 0x00), HUB_WRONG_LAYOUT, 44);
    request_refused("version 11", put(request, 0, 11), HUB_WRONG_VERSION, 0);
    request_refused("minimum version 13", put(request, 2, 13), HUB_WRONG_VERSION, 2);
    request_refused("an answer's signature", put(request, 4, 0x9D), HUB_WRONG_VERSION, 4);
    request_refused("a query in place of a put", query, HUB_NOT_SERVED, 27);
    request_refused("a sub-request of type 11", put(request, 27, 11 << 1 | 1), HUB_NOT_SERVED, 27);
    free(request.at);
}

/* 0x5A with its data at 33, and what may stand behind it, at 36. */
static void of_its_arguments(void) {
    struct text request = put_of(2, 0), zero = {0}, longer = put(request, 31, 4 << 1);
    add_byte(&zero, 0);
    request_refused("a storage index in no form", put(request, 33, 0x01), HUB_NO_FORM, 33);
    request_refused("an expected one in no form", put(request, 34, 0x01), HUB_NO_FORM, 34);
    request_refused("an expected one past its data", put(request, 34, 0x0C), HUB_RUNS_PAST, 34);
    request_refused("no flags", put(without(request, 35, 1), 31, 2 << 1), HUB_RUNS_PAST, 35);
    request_refused("a byte behind the flags", with(longer, 36, zero), HUB_WRONG_LAYOUT, 36);
    request_refused("the sub-request's end within their data", put(request, 31, 5 << 1), HUB_WRONG_LAYOUT, 36);
    request_refused("a query's arguments in place of the put's", put(request, 29, 0xDA), HUB_WRONG_LAYOUT, 29);
    request_refused("a compound one", put(request, 29, 0xD6), HUB_WRONG_LAYOUT, 29);
    free(request.at);
    free(longer.at);
}

/* What stands behind 0x5A, each plain: additional flags of 3 bytes, a lock's id of 16, a diagnostic byte; 4 before each. */
static struct text argument(uint64_t type, size_t data) {
    struct text part = {0};
    add_start(&part, type, 0, data);
    add_like(&part, data, 0);
    return part;
}

/* Of the additional flags, two bytes and then a number. Of a knowledge, the range stands at its byte 24, from at 42, to at 43. */
static void of_what_may_be_there(void) {
    struct range three[1] = {{SERIALS, 3, 3}};
    struct text request = put_of(2, 0), knowledge = {0}, flags = argument(ADDITIONAL_FLAGS, 3), lock = argument(LOCK_ID, 16);
    add_knowledge(&knowledge, three, 1);
    request_refused("padded additional flags", with(request, 36, put(flags, 6, 0x01)), HUB_NO_FORM, 42);
    request_refused("additional flags of two bytes", with(request, 36, argument(ADDITIONAL_FLAGS, 2)), HUB_RUNS_PAST, 42);
    request_refused("a lock's id of 15 bytes", with(request, 36, argument(LOCK_ID, 15)), HUB_RUNS_PAST, 40);
    request_refused("a lock's id of 17 bytes", with(request, 36, argument(LOCK_ID, 17)), HUB_WRONG_LAYOUT, 56);
    request_refused("a diagnostic object with no byte", with(request, 36, argument(DIAGNOSTIC, 0)), HUB_RUNS_PAST, 40);
    struct text locked = with(request, 36, lock), flagged = with(request, 36, argument(ADDITIONAL_FLAGS, 3));
    request_refused("additional flags behind a lock's id", with(locked, 56, flags), HUB_WRONG_LAYOUT, 56);
    request_refused("additional flags twice", with(flagged, 43, argument(ADDITIONAL_FLAGS, 3)), HUB_WRONG_LAYOUT, 43);
    request_refused("a range from 3 to 2", with(request, 36, put(knowledge, 43, 0x05)), HUB_FROM_ABOVE_TO, 79);
    request_refused("a range from 3 to a padded 0", with(request, 36, put(knowledge, 43, 0x01)), HUB_NO_FORM, 79);
    free(request.at);
    free(knowledge.at);
    free(locked.at);
    free(flagged.at);
}

/* The first element at 41: id 43, serial number 60, type 85, end 86; the second at 87: id 89. */
static void of_its_elements(void) {
    struct text one = put_of(2, 1), two = put_of(2, 2), nested = {0}, agent = {0};
    add_nested(&nested, 14);
    add_nested(&agent, 15);
    request_refused("an element cut within its id", cut(one, 50), HUB_RUNS_PAST, 43);
    request_refused("an id in no form", put(one, 43, 0x01), HUB_NO_FORM, 43);
    request_refused("a serial number in no form", put(one, 60, 0x01), HUB_NO_FORM, 60);
    request_refused("a padded type of an element", put(one, 85, 0x01), HUB_NO_FORM, 85);
    request_refused("an element ended by another's end", put(one, 86, 0x09), HUB_WRONG_END, 86);
    request_refused("a package in the package", put(one, 41, 0xAC), HUB_WRONG_LAYOUT, 41);
    request_refused("17 open in an element", with(one, 86, nested), HUB_TOO_DEEP, 86 + 2 * 13);
    request_refused("17 open in a user agent", with(one, 20, agent), HUB_TOO_DEEP, 20 + 2 * 14);
    request_refused("257 elements in a put", many_put(257, 0), HUB_TOO_MANY, 41 + 256 * 47);
    request_refused("an element with a null id", null_id(one, 41), HUB_NULL_NAME, 43);
    request_refused("an id twice in a put", put(two, 89, 0x14), HUB_SEEN_BEFORE, 89);
    free(one.at);
    free(two.at);
}

/* ---- what falls on no item */

/* An empty store, and stores of one element; in those of an index its type is 1, at 47. */
static void of_the_index(void) {
    struct text none = store_of(7, 0), one = store_of(7, 1), index = put(one, 47, 1 << 1 | 1), nothing = {0}, elements = {0};
    struct text unexpected = put_of(2, 1), first = put_around(1, nothing), second = put_around(2, nothing);
    struct result other = refusal(HUB_OTHER_INDEX, 0, 0);
    int no = put_refused(putting(none, first), other) && put_refused(putting(one, first), other);
    provoked(&seen, "an index expected, and there is none", HUB_OTHER_INDEX, no);
    provoked(&seen, "none expected, and there is one", HUB_OTHER_INDEX, put_refused(putting(index, unexpected), other));
    provoked(&seen, "another index", HUB_OTHER_INDEX, put_refused(putting(index, second), other));
    add_element(&elements, 1, SERIALS, 7, 0);
    add_element(&elements, 2, SERIALS, 8, 0);
    elements.at[44] = elements.at[46 + 44] = 1 << 1 | 1;
    struct text both = {0};
    add_package(&both, elements);
    provoked(&seen, "the second of two indexes", HUB_OTHER_INDEX, put_refused(putting(both, second), other));
    free(none.at);
    free(one.at);
    free(index.at);
    free(unexpected.at);
    free(first.at);
    free(second.at);
    free(both.at);
}

/* Both buffers one byte too short, and none. The new store has two elements, and its answer one range. */
static void of_the_buffers(void) {
    struct text store = store_of(7, 1), request = put_of(2, 1);
    struct putting p = putting(store, request), short_store = p, no_store = p, short_out = p, no_out = p;
    short_store.new_room = 95;
    no_store.new_room = 0;
    short_out.room = 79;
    no_out.room = 0;
    int good = put_needs(short_store, 96) && put_needs(no_store, 96);
    provoked(&seen, "a buffer for the new store one byte too short, and none", HUB_OUTPUT_TOO_SHORT, good);
    good = put_needs(short_out, 80) && put_needs(no_out, 80);
    provoked(&seen, "an output one byte too short, and none", HUB_OUTPUT_TOO_SHORT, good);
    free(store.at);
    free(request.at);
}

/* ---- which comes first */

/* The reasons in the order in which they are given, from include/hub.h. */
enum reason { STORE_CUT, PUT_CUT, OTHER_INDEX, NO_SERIAL, MANY, LONG, NO_NEW_STORE, NO_OUTPUT, REASONS };
static const char *const reasons[REASONS] = {"a fault of the store", "a fault of the put", "another index", "no serial number left",
                                             "257 elements", "a new store that is too long", "no buffer for it", "no output"};

/* A store and a put for which just these two reasons hold, by their numbers. The store is one element, or 256 of them; the put has
   one that is new. */
static struct putting with_reasons(enum reason a, enum reason b) {
    unsigned held = 1u << a | 1u << b;
    struct text elements = {0}, store = {0}, entering = {0};
    size_t others = held >> MANY & 1 ? 255 : 0;
    add_element(&elements, 1, SERIALS, held >> NO_SERIAL & 1 ? UINT64_MAX : 7, held >> LONG & 1 ? LONGEST - 58 - others * 47 : 0);
    add_many_elements(&elements, SERIALS, 8, (unsigned)others, 0);
    add_package(&store, elements);
    add_elements(&entering, 2, OTHERS, 1000, 1);
    struct text request = put_around(held >> OTHER_INDEX & 1 ? 1 : 0, entering);
    struct putting p = putting(store, request);
    p.store.length -= held >> STORE_CUT & 1;
    p.request.length -= held >> PUT_CUT & 1 ? 2 : 0;
    p.new_room = held >> NO_NEW_STORE & 1 ? 0 : p.new_room;
    p.room = held >> NO_OUTPUT & 1 ? 0 : p.room;
    return p;
}

/* What is told for the first reason. */
static struct result first_told(enum reason first, struct putting p) {
    struct result told[REASONS] = {
        {HUB_RUNS_PAST, 0, p.store.length, 0}, {HUB_RUNS_PAST, 1, p.request.length, 0}, {HUB_OTHER_INDEX, 0, 0, 0},
        {HUB_NO_SERIAL_LEFT, 0, 0, 0}, {HUB_TOO_MANY, 0, 0, 0}, {HUB_INPUT_TOO_LONG, 0, 0, 0},
        {HUB_OUTPUT_TOO_SHORT, 0, 0, p.store.length + 46}, {HUB_OUTPUT_TOO_SHORT, 0, 0, 80}};
    return told[first];
}

/* One by itself, if both are the same, or the first of two. */
static void comes_first(enum reason first, enum reason second) {
    char what[128];
    struct putting p = with_reasons(first, second);
    struct result r = first_told(first, p);
    sprintf(what, first == second ? "%s" : "%s before %s", reasons[first], reasons[second]);
    provoked(&seen, what, r.number, put_refused(p, r));
    free(p.store.at);
    free(p.request.at);
}

static void order(void) {
    for (unsigned i = 0; i < REASONS * REASONS; i++) {
        if (i / REASONS <= i % REASONS) {
            comes_first((enum reason)(i / REASONS), (enum reason)(i % REASONS));
        }
    }
}

/* ---- hub_write and hub_length, handed a put */

static void a_put_to_the_other_calls(void) {
    struct text store = store_of(7, 1), request = put_of(2, 1);
    beside("a put in place of a query", answer_refused(store, request, 4096, refusal(HUB_NOT_SERVED, 1, 27)));
    free(store.at);
    free(request.at);
}

int main(void) {
    each_store_fault(store_refused);
    of_the_request();
    of_its_arguments();
    of_what_may_be_there();
    of_its_elements();
    of_the_index();
    of_the_buffers();
    order();
    a_put_to_the_other_calls();
    beside("every number from 1 to 16 but 13 was given", seen == EVERY_PUT_NUMBER);
    return ended();
}
