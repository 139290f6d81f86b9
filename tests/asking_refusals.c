/* Every refusal that hub_ask, hub_read and hub_element can give, provoked: its number, the input, the place and the needed length,
   with the output left alone. The places are counted by hand from the layouts of document 01; a comment beside a group says
   where its parts stand. The store's faults stand in faults.h. Lengths and counts at their limits are tried in asking_limits.c and
   counts.c. The exit status is 1 if a line is not ok. */
#include "../include/hub.h"
#include "build.h"
#include "damage.h"
#include "faults.h"
#include "lent.h"
#include "limits.h"
#include "told.h"

#include <stdio.h>
#include <stdlib.h>
#include <string.h>

/* A bit for each number that was given as it should be, by each call. */
static unsigned asked = 0, was_read = 0, found_in_store = 0, found_in_answer = 0;

/* ---- requests written */

static void filters_refused(const char *what, struct text filters, uint64_t number, uint64_t place) {
    struct text none = {0};
    provoked(&asked, what, number, ask_refused(filters, none, 4096, refusal(number, 0, place)));
    free(filters.at);
}

static void knowledge_refused(const char *what, struct text knowledge, uint64_t number, uint64_t place) {
    struct text none = {0};
    provoked(&asked, what, number, ask_refused(none, knowledge, 4096, refusal(number, 1, place)));
    free(knowledge.at);
}

/* Kind 4, operation 5, end 6; of ids, their number at 10. */
static void of_filters(void) {
    struct text filter = {0}, ids = {0};
    add_filter(&filter, 1);
    add_ids_filter(&ids, 2);
    filters_refused("filters without the last end", cut(filter, 6), HUB_RUNS_PAST, 6);
    filters_refused("a filter ended by another's end", put(filter, 6, 0x1B), HUB_WRONG_END, 6);
    filters_refused("the sub-request's end behind a filter", put_behind(put_behind(filter, 0x0B), 0x01),
                    HUB_WRONG_LAYOUT, 8);
    filters_refused("a filter of another kind", put(filter, 4, 0x03), HUB_NOT_SERVED, 4);
    filters_refused("a filter of a padded number of ids", put(ids, 10, 0x01), HUB_NO_FORM, 10);
    filters_refused("a filter with another operation", put(filter, 5, 0xFF), HUB_NOT_SERVED, 5);
    struct text many = {0};
    for (unsigned i = 0; i < 17; i++) {
        add_filter(&many, 1);
    }
    filters_refused("17 filters", many, HUB_TOO_MANY, 128);
    free(filter.at);
    free(ids.at);
}

/* Knowledge 0, cell knowledge 2, its GUID 6, 0x14 22, range 24, GUID 26, from 42, to 43, ends 44, 45 and 47; 48 bytes. */
static void of_knowledge(void) {
    struct range three[1] = {{SERIALS, 3, 3}};
    struct text knowledge = {0}, deep = {0}, long_input = {0}, none = {0};
    struct result short_by_one = {HUB_OUTPUT_TOO_SHORT, 0, 0, 45 + 48};
    add_knowledge(&knowledge, three, 1);
    knowledge_refused("a knowledge without its last end", cut(knowledge, 47), HUB_RUNS_PAST, 47);
    knowledge_refused("a range from a padded 0", put(knowledge, 42, 0x01), HUB_NO_FORM, 42);
    knowledge_refused("a range from 3 to a padded 0", put(knowledge, 43, 0x01), HUB_NO_FORM, 43);
    knowledge_refused("a knowledge ended by another's end", put(knowledge, 44, 0x55), HUB_WRONG_END, 44);
    knowledge_refused("a byte behind a knowledge", put_behind(knowledge, 0x00), HUB_WRONG_LAYOUT, 48);
    knowledge_refused("a range from 3 to 2", put(knowledge, 43, 0x05), HUB_FROM_ABOVE_TO, 43);
    add_other_knowledge(&deep, 13);
    knowledge_refused("17 open in a knowledge", deep, HUB_TOO_DEEP, 22 + 2 * 12);
    add_like(&long_input, LONGEST + 1, 0x0C);
    filters_refused("filters of 16,777,217 bytes", exact(long_input), HUB_INPUT_TOO_LONG, LONGEST);
    knowledge_refused("a knowledge of 16,777,217 bytes", long_input, HUB_INPUT_TOO_LONG, LONGEST);
    int good = ask_refused(none, knowledge, 45 + 47, short_by_one) && ask_refused(none, knowledge, 0, short_by_one);
    provoked(&asked, "an output one byte too short, and none", HUB_OUTPUT_TOO_SHORT, good);
    free(knowledge.at);
}

/* ---- answers read, and their elements */

/* Both calls that read an answer refuse it alike, hub_element before it looks at the position. */
static void answer_read_refused(const char *what, struct text answer, uint64_t number, uint64_t place) {
    struct result r = refusal(number, 0, place);
    provoked(&was_read, what, number, read_refused(answer, r));
    provoked(&found_in_answer, what, number,
             finds(HUB_IN_ANSWER, answer, 0, r) && finds(HUB_IN_ANSWER, answer, UINT64_MAX, r));
    free(answer.at);
}

/* An answer with this many elements of 46 bytes from the serial number 7 on, and a knowledge of one range from 3 to 3. */
static struct text answer_with(unsigned n) {
    struct range three[1] = {{SERIALS, 3, 3}};
    struct text elements = {0}, answer = {0};
    add_elements(&elements, 1, SERIALS, 7, n);
    add_answer(&answer, elements, 0, three, 1);
    return answer;
}

/* Version 0 and 2, signature 4, response 12, its status 16, package 17, elements 20, package's end 20; sub-response 21, id 25, type
   26, status 27; 0x5F 28, storage index 32, partial byte 33; knowledge 34, its range's from 76 and to 77, ends 78, 79, 81, 82 and
   84; 86 bytes. */
static void of_the_answer(void) {
    struct text answer = answer_with(0), long_input = {0};
    answer_read_refused("no answer", cut(answer, 0), HUB_RUNS_PAST, 0);
    answer_read_refused("an answer without its last end", cut(answer, 84), HUB_RUNS_PAST, 84);
    answer_read_refused("a storage index in no form", put(answer, 32, 0x01), HUB_NO_FORM, 32);
    answer_read_refused("a package ended by another's end", put(answer, 20, 0x59), HUB_WRONG_END, 20);
    answer_read_refused("a response that failed", put(answer, 16, 0x01), HUB_WRONG_LAYOUT, 16);
    answer_read_refused("a sub-response that failed", put(answer, 27, 0x01), HUB_WRONG_LAYOUT, 27);
    answer_read_refused("a byte behind the answer", put_behind(answer, 0x00), HUB_WRONG_LAYOUT, 86);
    answer_read_refused("version 11", put(answer, 0, 11), HUB_WRONG_VERSION, 0);
    answer_read_refused("a request's signature", put(answer, 4, 0x9C), HUB_WRONG_VERSION, 4);
    answer_read_refused("a sub-response of another type", put(answer, 26, 0x0B), HUB_NOT_SERVED, 26);
    answer_read_refused("a sub-response of a padded type", put(answer, 26, 0x01), HUB_NOT_SERVED, 26);
    answer_read_refused("a range from 3 to 2", put(answer, 77, 0x05), HUB_FROM_ABOVE_TO, 77);
    answer_read_refused("a range from 3 to a padded 0", put(answer, 77, 0x01), HUB_FROM_ABOVE_TO, 77);
    add_like(&long_input, (size_t)HUB_LONGEST_ANSWER_READ + 1, 0x0C);
    answer_read_refused("an answer of 16,842,753 bytes", long_input, HUB_INPUT_TOO_LONG, HUB_LONGEST_ANSWER_READ);
    free(answer.at);
}

/* The first element at 20: id 22, serial number 39, type 64, end 65; the second at 66: id 68. */
static void of_its_elements(void) {
    struct text one = answer_with(1), two = answer_with(2), nested = {0}, known = {0};
    answer_read_refused("an element with a null id", null_id(one, 20), HUB_NULL_NAME, 22);
    answer_read_refused("an element with a null serial number", null_serial(one, 20), HUB_NULL_NAME, 39);
    answer_read_refused("an id that was seen before", put(two, 68, 0x0C), HUB_SEEN_BEFORE, 68);
    add_nested(&nested, 15);
    answer_read_refused("18 open in an element", with(one, 65, nested), HUB_TOO_DEEP, 65 + 2 * 14);
    add_knowledge(&known, NULL, 0);
    answer_read_refused("257 elements", many_answer(257, 0, known), HUB_TOO_MANY, 20 + 256 * 47);
    free(one.at);
    free(two.at);
}

/* ---- elements of a store */

static void store_found_refused(const char *what, struct text store, uint64_t number, uint64_t place) {
    struct result r = refusal(number, 0, place);
    provoked(&found_in_store, what, number, finds(HUB_IN_STORE, store, 0, r) && finds(HUB_IN_STORE, store, UINT64_MAX, r));
    free(store.at);
}

/* The last position, and the one behind it. */
static void positions(void) {
    struct text store = store_of(7, 3), answer = answer_with(3), none = store_of(7, 0);
    struct result last = {HUB_DONE, 0, 3 + 2 * 46, 46}, last_sent = {HUB_DONE, 0, 20 + 2 * 46, 46};
    struct result past = refusal(HUB_TOO_MANY, 0, 0);
    beside("the last of three elements", finds(HUB_IN_STORE, store, 2, last) && finds(HUB_IN_ANSWER, answer, 2, last_sent));
    beside("none behind it", finds(HUB_IN_STORE, store, 3, past) && finds(HUB_IN_ANSWER, answer, 3, past));
    beside("none at 2^64-1", finds(HUB_IN_STORE, store, UINT64_MAX, past) && finds(HUB_IN_ANSWER, answer, UINT64_MAX, past));
    beside("none in an empty store", finds(HUB_IN_STORE, none, 0, past));
    free(store.at);
    free(answer.at);
    free(none.at);
}

/* ---- padding, which is no fault of a store or of an answer: the byte 0x01 is a 0 that has a shorter form */

/* One element, found as it stands: in a store its type stands at 47; in an answer at 64, the sub-response's id at 71, the range's
   from at 122. */
static void padded(void) {
    struct text store = store_of(7, 1), answer = answer_with(1);
    struct text type = put(store, 47, 0x01), sent = put(answer, 64, 0x01);
    struct text id = put(answer, 71, 0x01), from = put(answer, 122, 0x01);
    struct result whole = {HUB_DONE, 0, 3, 46}, whole_sent = {HUB_DONE, 0, 20, 46};
    beside("a padded type in a store", finds(HUB_IN_STORE, type, 0, whole));
    beside("and in an answer", finds(HUB_IN_ANSWER, sent, 0, whole_sent));
    beside("a padded id of an answer", finds(HUB_IN_ANSWER, id, 0, whole_sent));
    beside("a range from a padded 0 in it", finds(HUB_IN_ANSWER, from, 0, whole_sent));
    free(store.at);
    free(answer.at);
    free(type.at);
    free(sent.at);
    free(id.at);
    free(from.at);
}

int main(void) {
    unsigned all = EVERY_NUMBER, no_output = all & ~(1u << HUB_OUTPUT_TOO_SHORT);
    unsigned no_names = 1u << HUB_NULL_NAME | 1u << HUB_SEEN_BEFORE;
    of_filters();
    of_knowledge();
    of_the_answer();
    of_its_elements();
    each_store_fault(store_found_refused);
    positions();
    padded();
    beside("hub_ask gave each of its numbers", asked == (all & ~no_names & ~(1u << HUB_WRONG_VERSION)));
    beside("hub_read gave each of its numbers", was_read == no_output);
    beside("hub_element gave them too, of an answer", found_in_answer == no_output);
    beside("and each of a store's", found_in_store == (no_output & ~(1u << HUB_WRONG_VERSION | 1u << HUB_NOT_SERVED |
                                                                      1u << HUB_FROM_ABOVE_TO)));
    return ended();
}
