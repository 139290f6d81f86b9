/* Every refusal of hub_write, provoked: its number, the input, the place and the needed length, with the output left alone; and
   the same refusal of hub_length, with as much offered. The places are counted by hand from the layouts of document 01; a comment
   beside a group says where its parts stand. The store's faults stand in faults.h. Lengths and counts at their limits are tried
   in limits.c and counts.c. The exit status is 1 if a line is not ok. */
#include "../include/hub.h"
#include "build.h"
#include "damage.h"
#include "faults.h"
#include "lent.h"
#include "limits.h"
#include "told.h"

#include <stdio.h>
#include <stdlib.h>
#include <string.h>

static unsigned seen = 0; /* a bit for each number that was given as it should be */

/* The store is at fault, and there is room for any answer. */
static void store_refused(const char *what, struct text store, uint64_t number, uint64_t place) {
    struct text request = plain_request();
    provoked(&seen, what, number, answer_refused(store, request, 4096, refusal(number, 0, place)));
    free(request.at);
    free(store.at);
}

/* The request is at fault, and the store is not. */
static void request_refused(const char *what, struct text request, uint64_t number, uint64_t place) {
    struct text store = store_of(7, 1);
    provoked(&seen, what, number, answer_refused(store, request, 4096, refusal(number, 1, place)));
    free(store.at);
    free(request.at);
}

/* Version 0 and 2, signature 4, request 12, user agent 16, its end 20, sub-request 22, its id 26, its type 27, its priority 28,
   0x51 29, its byte 33, arguments 34, flags 38, cell ID 39 and 40, end 41; filters or knowledge stand before that end. The byte
   0x01 is a padded 0. */
static void of_the_request(void) {
    struct text request = plain_request();
    request_refused("a request without its last end", cut(request, 43), HUB_RUNS_PAST, 43);
    request_refused("a padded id", put(request, 26, 0x01), HUB_NO_FORM, 26);
    request_refused("a padded type, which is another too", put(request, 27, 0x01), HUB_NO_FORM, 27);
    request_refused("a padded priority", put(request, 28, 0x01), HUB_NO_FORM, 28);
    request_refused("a user agent ended by another's end", put(request, 20, 0x7B), HUB_WRONG_END, 20);
    request_refused("no sub-request", without(request, 22, 21), HUB_WRONG_LAYOUT, 22);
    request_refused("a byte behind the request", put_behind(request, 0x00), HUB_WRONG_LAYOUT, 45);
    request_refused("version 11", put(request, 0, 11), HUB_WRONG_VERSION, 0);
    request_refused("minimum version 13", put(request, 2, 13), HUB_WRONG_VERSION, 2);
    request_refused("an answer's signature", put(request, 4, 0x9D), HUB_WRONG_VERSION, 4);
    request_refused("another sub-request", put(request, 27, 0x0B), HUB_NOT_SERVED, 27);
    request_refused("arguments without the two flags", put(request, 38, 0x01), HUB_NOT_SERVED, 38);
    free(request.at);
}

/* Before the sub-request's end, at 41. A filter: kind at its byte 4, operation at 5. A cell knowledge: range at its byte 24, GUID
   at 26, from at 42 and to at 43. */
static void of_its_parts(void) {
    struct range three[1] = {{SERIALS, 3, 3}};
    struct text filter = {0}, knowledge = {0}, request = plain_request();
    add_filter(&filter, 1);
    add_knowledge(&knowledge, three, 1);
    request_refused("a filter of another kind", with(request, 41, put(filter, 4, 0x07)), HUB_NOT_SERVED, 45);
    request_refused("a filter with another operation", with(request, 41, put(filter, 5, 0x02)), HUB_NOT_SERVED, 46);
    request_refused("a filter cut behind its kind", with(request, 41, cut(filter, 5)), HUB_NOT_SERVED, 46);
    request_refused("a range from 3 to 2", with(request, 41, put(knowledge, 43, 0x05)), HUB_FROM_ABOVE_TO, 84);
    request_refused("a range from 3 to a padded 0", with(request, 41, put(knowledge, 43, 0x01)), HUB_NO_FORM, 84);
    request_refused("a range from a padded 0", with(request, 41, put(knowledge, 42, 0x01)), HUB_NO_FORM, 83);
    request_refused("a range ended by another's end", with(request, 41, put(knowledge, 44, 0x55)), HUB_WRONG_END, 85);
    free(filter.at);
    free(knowledge.at);
    free(request.at);
}

/* The rest: a user agent, whose objects begin at 20, with too many inside; what falls on no item; and a request that is too long. */
static void others(void) {
    struct text store = store_of(7, 1), request = plain_request(), nested = {0}, long_input = {0};
    struct result short_by_one = {HUB_OUTPUT_TOO_SHORT, 0, 0, 132};
    add_nested(&nested, 15);
    request_refused("17 open in a request", with(request, 20, nested), HUB_TOO_DEEP, 20 + 2 * 14);
    add_like(&long_input, LONGEST + 1, 0x0C);
    request_refused("a request of 16,777,217 bytes", long_input, HUB_INPUT_TOO_LONG, LONGEST);
    int good = answer_refused(store, request, 131, short_by_one) && answer_refused(store, request, 0, short_by_one);
    provoked(&seen, "an output one byte too short, and none", HUB_OUTPUT_TOO_SHORT, good);
    free(store.at);
    free(request.at);
}

/* ---- the words for a log */

static void texts(void) {
    int apart = 1;
    for (uint64_t i = 0; i <= 17; i++) {
        for (uint64_t j = 0; j < i; j++) {
            apart = apart && strcmp(hub_refusal_text(i), hub_refusal_text(j)) != 0;
        }
    }
    beside("each number has words of its own", apart);
    beside("no refusal", strcmp(hub_refusal_text(HUB_DONE), "no refusal") == 0);
    beside("and all others the same", strcmp(hub_refusal_text(17), hub_refusal_text(UINT64_MAX)) == 0);
}

int main(void) {
    each_store_fault(store_refused);
    of_the_request();
    of_its_parts();
    others();
    texts();
    beside("every number from 1 to 14 but 13 was given", seen == EVERY_NUMBER);
    return ended();
}
