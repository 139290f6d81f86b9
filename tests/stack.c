/* How much stack the calls take, each on the inputs that take it deepest: objects nested as deep as they may be, with short headers
   and with long ones, 256 elements, each by itself and in groups, 512 ranges, 16 filters of 64 ids, a page of 256 elements, a put
   of 256 into 256, an answer of 256 kept in a book of 256. Each call runs on a stack of its own (stack.h) with exactly HUB_STACK_BYTES below the caller's. The exit status
   is 1 if a line is not ok. */
#define _DEFAULT_SOURCE /* MAP_ANONYMOUS */
#include "../include/hub.h"
#include "build.h"
#include "damage.h"
#include "lent.h"
#include "limits.h"
#include "puts.h"
#include "stack.h"

#include <stdio.h>
#include <stdlib.h>
#include <string.h>

static size_t most; /* the greatest number of bytes that a call took */

/* ---- the calls */

/* What a call is handed and what it gave. The caller's own part of the stack is small, and is counted with the call's. */
struct call {
    struct text first, second;
    uint64_t kind, position, number;
    uint8_t *out, *new_store;
    size_t room;
    uint8_t report[HUB_READ_REPORT_BYTES];
};

static void length_it(void *what) {
    struct call *c = what;
    c->number = hub_length(c->first.at, c->first.length, c->second.at, c->second.length, c->room, c->report, sizeof c->report);
}

static void write_it(void *what) {
    struct call *c = what;
    c->number = hub_write(c->first.at, c->first.length, c->second.at, c->second.length, c->out, c->room, c->report,
                          sizeof c->report);
}

static void ask_it(void *what) {
    struct call *c = what;
    c->number = hub_ask(1, 0, c->first.at, c->first.length, c->second.at, c->second.length, c->out, c->room, c->report,
                        sizeof c->report);
}

static void read_it(void *what) {
    struct call *c = what;
    c->number = hub_read(c->first.at, c->first.length, c->report, sizeof c->report);
}

static void put_it(void *what) {
    struct call *c = what;
    c->number = hub_put(c->first.at, c->first.length, c->second.at, c->second.length, HALF_OF_SERIALS, HALF_OF_SERIALS,
                        c->new_store, c->room, c->out, c->room, c->report, sizeof c->report);
}

static void ask_put_it(void *what) {
    struct call *c = what;
    c->number = hub_ask_put(1, 1, HALF_OF_IDS, HALF_OF_IDS, UINT32_MAX, c->first.at, c->first.length, c->out, c->room, c->report,
                            sizeof c->report);
}

static void read_put_it(void *what) {
    struct call *c = what;
    c->number = hub_read_put(c->first.at, c->first.length, c->report, sizeof c->report);
}

static void keep_it(void *what) {
    struct call *c = what;
    c->number = hub_keep(c->first.at, c->first.length, c->second.at, c->second.length, c->new_store, c->room, c->report,
                         sizeof c->report);
}

static void find_it(void *what) {
    struct call *c = what;
    c->number = hub_element(c->kind, c->first.at, c->first.length, c->position, c->report, sizeof c->report);
}

/* One line: the call gives the number that it should, within its stack. */
static void takes(const char *what, void (*work)(void *), struct call c, uint64_t number) {
    size_t bytes = taken_by(work, &c);
    printf("%s took %zu bytes\n", what, bytes);
    beside(what, c.number == number && bytes > 0 && bytes < HUB_STACK_BYTES);
    most = bytes > most ? bytes : most;
}

/* Two lines: the length of an answer asked for, and the answer written. */
static void takes_both(const char *what, struct call c, uint64_t number) {
    char line[128];
    sprintf(line, "the length of %s", what);
    takes(line, length_it, c, number);
    takes(what, write_it, c, number);
}

/* ---- what is handed in */

/* 15 filters of 64 ids, and one of every element, so that all are in. */
static struct text many_filters(void) {
    struct text filters = {0};
    for (unsigned i = 0; i < 15; i++) {
        add_ids_filter(&filters, 64);
    }
    add_filter(&filters, 1);
    return filters;
}

/* n ranges of which no two touch. */
static struct text spread_knowledge(size_t n) {
    static struct range r[512];
    struct text knowledge = {0};
    for (size_t i = 0; i < n; i++) {
        struct range x = {OTHERS, UINT64_MAX - 2 * (n - i), UINT64_MAX - 2 * (n - i)};
        r[i] = x;
    }
    add_knowledge(&knowledge, r, n);
    return knowledge;
}

/* A request with objects nested in its user agent, these filters, this knowledge and a package with objects nested in it. */
static struct text deep_request(unsigned agent, struct text filters, struct text knowledge, unsigned package) {
    struct text request = {0}, front = {0};
    add_request_front(&front, 0);
    add(&request, front.at, 20); /* up to the user agent's end */
    add_nested(&request, agent);
    add(&request, front.at + 20, front.length - 20);
    add(&request, filters.at, filters.length);
    add(&request, knowledge.at, knowledge.length);
    add_end(&request, SUB_REQUEST);
    add_start(&request, PACKAGE, 1, 1);
    add_byte(&request, 0);
    add_nested(&request, package);
    add_end(&request, PACKAGE);
    add_end(&request, REQUEST);
    free(front.at);
    return request;
}

/* A store of 256 elements, of which so many behind one another share a number that no other follows: each group is a range of its
   own. */
static struct text spread_store(unsigned nested, unsigned share) {
    struct text elements = {0}, store = {0};
    for (unsigned i = 0; i < 256; i++) {
        struct text one = {0};
        add_many_elements(&one, SERIALS, UINT64_MAX / 2 + 2 * (i / share), 1, nested);
        one.at[2] = (uint8_t)((0x20 + i) << 6 | 0x20); /* the id's number is above the lowest 6 bits */
        one.at[3] = (uint8_t)((0x20 + i) >> 2);
        add_text(&elements, &one);
    }
    add_package(&store, elements);
    return store;
}

/* ---- each call at its deepest */

static struct call of(struct text first, struct text second) {
    struct call c = {first, second, 0, 0, 99, NULL, NULL, 1 << 20, {0}};
    c.out = room_for(c.room);
    c.new_store = room_for(c.room);
    return c;
}

static void answers(void) {
    struct text none = {0}, deep = many_store(256, 14), too_deep = many_store(256, 15), other = {0}, too_deep_other = {0};
    struct text all = deep_request(14, many_filters(), spread_knowledge(511), 14), flat = store_of(7, 1);
    struct text but_128 = deep_request(14, many_filters(), spread_knowledge(384), 14);
    add_other_knowledge(&other, 12);
    add_other_knowledge(&too_deep_other, 13);
    takes_both("an answer of 256 elements, with 512 ranges and 16 filters", of(deep, all), HUB_DONE);
    takes_both("an answer of 128 groups of two, with 512 ranges and 16 filters", of(spread_store(14, 2), but_128), HUB_DONE);
    takes_both("an answer of one group of 256", of(spread_store(14, 256), all), HUB_DONE);
    takes_both("an answer, 16 open in the user agent", of(flat, deep_request(14, none, none, 0)), HUB_DONE);
    takes_both("an answer, 17 open in the user agent", of(flat, deep_request(15, none, none, 0)), HUB_TOO_DEEP);
    takes_both("an answer, 16 open in a knowledge", of(flat, deep_request(0, none, other, 0)), HUB_DONE);
    takes_both("an answer, 17 open in a knowledge", of(flat, deep_request(0, none, too_deep_other, 0)), HUB_TOO_DEEP);
    takes_both("an answer, 16 open in a package", of(flat, deep_request(0, none, none, 14)), HUB_DONE);
    takes_both("an answer, 17 open in a package", of(flat, deep_request(0, none, none, 15)), HUB_TOO_DEEP);
    takes_both("an answer from a store with 17 open", of(too_deep, all), HUB_TOO_DEEP);
    takes_both("an answer with nothing handed in", of(none, none), HUB_RUNS_PAST);
}

static void requests(void) {
    struct text none = {0}, other = {0}, too_deep_other = {0};
    add_other_knowledge(&other, 12);
    add_other_knowledge(&too_deep_other, 13);
    takes("a request with 16 filters and 512 ranges", ask_it, of(many_filters(), spread_knowledge(512)), HUB_DONE);
    takes("a request with 16 open", ask_it, of(many_filters(), other), HUB_DONE);
    takes("with 17 open", ask_it, of(none, too_deep_other), HUB_TOO_DEEP);
}

static void answers_read(void) {
    struct text other = {0}, too_deep_other = {0}, ranges = spread_knowledge(512), none = {0};
    add_other_knowledge(&other, 13);
    add_other_knowledge(&too_deep_other, 14);
    takes("an answer read of 256 elements, 17 open, 512 ranges", read_it, of(many_answer(256, 14, ranges), none), HUB_DONE);
    takes("17 open in its knowledge too", read_it, of(many_answer(256, 14, other), none), HUB_DONE);
    takes("18 open in it", read_it, of(many_answer(256, 14, too_deep_other), none), HUB_TOO_DEEP);
    takes("18 open in an element", read_it, of(many_answer(256, 15, ranges), none), HUB_TOO_DEEP);
}

static void elements_found(void) {
    struct text none = {0}, ranges = spread_knowledge(512);
    struct call store = of(many_store(256, 14), none), answer = of(many_answer(256, 14, ranges), none);
    store.position = answer.position = 255;
    answer.kind = HUB_IN_ANSWER;
    takes("the last of 256 elements of a store, 16 open", find_it, store, HUB_DONE);
    takes("of an answer, 17 open", find_it, answer, HUB_DONE);
    store.first = many_store(256, 15);
    answer.first = many_answer(256, 15, ranges);
    takes("of a store, 17 open", find_it, store, HUB_TOO_DEEP);
    takes("of an answer, 18 open", find_it, answer, HUB_TOO_DEEP);
}

static void answers_kept(void) {
    struct text none = {0}, ranges = spread_knowledge(512), empty = store_of(7, 0), deep = spread_store(14, 1);
    struct text all = many_answer(256, 14, ranges), other = many_answer(256, 14, other_knowledge(13));
    takes("an answer of 256 elements, 17 open, 512 ranges, kept in a book of 256", keep_it, of(deep, all), HUB_DONE);
    takes("kept in a book of 128 groups of two", keep_it, of(spread_store(14, 2), all), HUB_DONE);
    takes("kept in an empty book", keep_it, of(empty, all), HUB_DONE);
    takes("17 open in its knowledge too, kept", keep_it, of(deep, other), HUB_DONE);
    takes("18 open in an element, and a book", keep_it, of(deep, many_answer(256, 15, ranges)), HUB_TOO_DEEP);
    takes("18 open in its knowledge, and a book", keep_it, of(deep, many_answer(256, 14, other_knowledge(14))), HUB_TOO_DEEP);
    takes("a book with 17 open", keep_it, of(spread_store(15, 1), all), HUB_TOO_DEEP);
    takes("a book that would be over-full", keep_it, of(long_store(100), all), HUB_TOO_MANY);
    takes("no book and no answer", keep_it, of(none, none), HUB_RUNS_PAST);
}

/* A put of the elements of many_store with objects nested in them, in its user agent, at 20, and in its knowledge, at 36. */
static struct text deep_put(unsigned elements, unsigned nested, unsigned agent, struct text knowledge) {
    return nested_at(with(many_put(elements, nested), 36, knowledge), 20, agent);
}

static void changes(void) {
    struct text none = {0}, deep = spread_store(14, 1), too_deep = spread_store(15, 1);
    struct text all = deep_put(256, 13, 14, spread_knowledge(512));
    struct text nothing = put_of(1, 0), one = deep_put(1, 13, 14, other_knowledge(12)), empty = store_of(7, 0);
    takes("a put of 256 elements into 256, 16 open, with 512 ranges", put_it, of(deep, all), HUB_DONE);
    takes("a put of 256 elements into none", put_it, of(empty, all), HUB_DONE);
    takes("a put of nothing into 256, which are told as 256 ranges", put_it, of(deep, nothing), HUB_DONE);
    takes("a put of 256 elements into 128 groups of two", put_it, of(spread_store(14, 2), all), HUB_DONE);
    takes("a put of one, 16 open in its knowledge", put_it, of(deep, one), HUB_DONE);
    takes("17 open in an element of a put", put_it, of(deep, deep_put(256, 14, 14, spread_knowledge(512))), HUB_TOO_DEEP);
    takes("17 open in its user agent", put_it, of(deep, deep_put(256, 13, 15, none)), HUB_TOO_DEEP);
    takes("17 open in its knowledge", put_it, of(deep, deep_put(256, 13, 14, other_knowledge(13))), HUB_TOO_DEEP);
    takes("a store with 17 open, and a put", put_it, of(too_deep, all), HUB_TOO_DEEP);
    takes("no store and no put", put_it, of(none, none), HUB_RUNS_PAST);
}

static void changes_asked(void) {
    struct text none = {0}, deep = {0}, too_deep = {0};
    add_many_elements(&deep, OTHERS, 1000, 256, 13);
    add_many_elements(&too_deep, OTHERS, 1000, 256, 14);
    takes("a put written with 256 elements, 16 open", ask_put_it, of(deep, none), HUB_DONE);
    takes("with 17 open", ask_put_it, of(too_deep, none), HUB_TOO_DEEP);
    takes("with nothing", ask_put_it, of(none, none), HUB_DONE);
}

static void changes_answered(void) {
    struct text none = {0}, elements = {0}, answer = {0}, ranges = spread_knowledge(512);
    add_many_elements(&elements, SERIALS, 7, 256, 14);
    add_answer_front(&answer, elements, PUT);
    add_text(&answer, &ranges);
    add_answer_ends(&answer);
    takes("an answer to a put read, of 256 elements, 17 open, 512 ranges", read_put_it, of(answer, none), HUB_DONE);
    takes("17 open in its knowledge", read_put_it, of(put_answer_with(other_knowledge(13)), none), HUB_DONE);
    takes("18 open in its knowledge", read_put_it, of(put_answer_with(other_knowledge(14)), none), HUB_TOO_DEEP);
    takes("no answer to a put", read_put_it, of(none, none), HUB_RUNS_PAST);
}

int main(void) {
    static const unsigned types[] = {INSIDE, LONGEST_TYPE}; /* short headers, and long ones */
    make_stack();
    for (size_t i = 0; i < sizeof types / sizeof *types; i++) {
        nested_type = types[i];
        printf("nested objects of type %u:\n", nested_type);
        answers();
        requests();
        answers_read();
        elements_found();
        answers_kept();
        changes();
        changes_asked();
        changes_answered();
    }
    printf("%zu bytes of stack at most, of %u\n", most, HUB_STACK_BYTES);
    return ended();
}
