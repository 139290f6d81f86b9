/* Both sides of every count and every depth for the three calls that have to do with puts: 256 elements and 257, in the store, in
   the put and in the new store, 512 ranges and 513, 16 open objects and 17, in an answer that is read 17 and 18. On the right side
   a call gives its result, on the other it refuses at the first one too many, or on no item where the new store has it. counts.c
   has the other calls. The exit status is 1 if a line is not ok. */
#include "../include/hub.h"
#include "build.h"
#include "damage.h"
#include "limits.h"
#include "puts.h"
#include "told.h"

#include <stdio.h>
#include <stdlib.h>

/* ---- 256 elements */

/* Elements of many_store, whose serial numbers count up from here. */
static struct text many_from(uint64_t serial, unsigned n) {
    struct text elements = {0}, store = {0};
    add_many_elements(&elements, SERIALS, serial, n, 0);
    add_package(&store, elements);
    return store;
}

/* One more element than those of many_store: its id is of another form. */
static struct text many_and_one(unsigned n) {
    struct text elements = {0}, store = {0};
    add_many_elements(&elements, SERIALS, 7, n, 0);
    add_element(&elements, 2, SERIALS, 7 + n, 0);
    add_package(&store, elements);
    return store;
}

static void elements_of_a_store(void) {
    struct text below = many_store(255, 0), full = many_store(256, 0), over = many_store(257, 0), one = put_of(2, 1);
    struct text nothing = put_of(2, 0), all = many_put(256, 0);
    struct result many = refusal(HUB_TOO_MANY, 0, 0);
    document_02("a new store of 256 elements", enters(putting(below, one), many_and_one(255), told_from(7, 262)));
    document_02("a new store of 257 elements", put_refused(putting(full, one), many));
    document_02("all of 256 replaced", enters(putting(full, all), many_from(263, 256), told_from(263, 518)));
    paper("a store of 256 elements, and nothing", enters(putting(full, nothing), full, told_from(7, 262)));
    paper("a store of 257 elements", put_refused(putting(over, nothing), refusal(HUB_TOO_MANY, 0, 3 + 256 * 47)));
    struct text first_anew = put(put(full, 40, 263 % 256), 41, 263 / 256); /* its serial number at 23, the number at 40 */
    document_02("one of 256 replaced", enters(putting(full, many_put(1, 0)), first_anew, told_from(8, 263)));
}

static void elements_of_a_put(void) {
    struct text none = store_of(7, 0), other = store_of(7, 1), full = many_put(256, 0), over = many_put(257, 0);
    paper("a put of 256 elements", enters(putting(none, full), many_from(1, 256), told_from(1, 256)));
    paper("a put of 257 elements", put_refused(putting(none, over), refusal(HUB_TOO_MANY, 1, 41 + 256 * 47)));
    document_02("256 of them beside another", put_refused(putting(other, full), refusal(HUB_TOO_MANY, 0, 0)));
}

static void elements_asked(void) {
    struct text full = {0}, over = {0};
    add_many_elements(&full, OTHERS, 1000, 256, 0);
    add_many_elements(&over, OTHERS, 1000, 257, 0);
    paper("256 elements handed in", put_written(asking_put(full), many_put(256, 0)));
    paper("257 elements handed in", ask_put_refused(asking_put(over), refusal(HUB_TOO_MANY, 0, 256 * 47)));
}

/* ---- 256 ranges, the most that can be told of a store */

/* 255 elements of 47 bytes, no number of which follows another; of each the number's lowest bytes stand 37 and 38 behind its start.
   One enters, under a GUID that comes behind theirs. */
static void ranges_told(void) {
    static struct range known[256];
    struct text before = {0}, after = {0}, store = {0}, new_store = {0};
    add_many_elements(&before, SERIALS, 0, 255, 0);
    for (unsigned i = 0; i < 255; i++) {
        struct range alone = {SERIALS, 2 * i, 2 * i};
        before.at[47 * i + 37] = (uint8_t)(2 * i % 256);
        before.at[47 * i + 38] = (uint8_t)(2 * i / 256);
        known[i] = alone;
    }
    known[255].guid = OTHERS;
    known[255].from = known[255].to = 1;
    add(&after, before.at, before.length);
    add_element(&after, 2, OTHERS, 1, 0);
    add_package(&store, before);
    add_package(&new_store, after);
    struct putting p = putting(store, put_of(2, 1));
    p.low = p.high = HALF_OF_OTHERS;
    beside("256 ranges told", enters(p, new_store, put_answer(known, 256)));
}

/* ---- 512 ranges and entries */

/* In a put a knowledge stands at 36, in its answer at 28; its first range at its byte 24, each 20 bytes long. */
static void ranges_known(void) {
    struct text none = store_of(1, 0), one = store_of(1, 1), request = put_of(1, 1);
    struct text full = with(request, 36, same_ranges(512)), over = with(request, 36, same_ranges(513));
    paper("512 ranges known in a put", enters(putting(none, full), one, told_from(1, 1)));
    paper("513 ranges known in a put", put_refused(putting(none, over), refusal(HUB_TOO_MANY, 1, 36 + 24 + 512 * 20)));
    paper("512 ranges in a put's answer", put_answer_read(put_answer_with(same_ranges(512)), 28 + 512 * 20));
    paper("513 ranges in a put's answer",
          read_put_refused(put_answer_with(same_ranges(513)), refusal(HUB_TOO_MANY, 0, 28 + 24 + 512 * 20)));
}

/* ---- depth */

/* Outside the objects of an element stand the request, the package and the element itself; in a store the first is not there. In an
   element that is put they stand at 86, in one that is stored at 48. */
static void depth_of_elements(void) {
    struct text none = store_of(1, 0), one = store_of(1, 1), request = put_of(1, 1), second = put_of(2, 1), elements = {0};
    struct text after = nested_at(one, 48, 13), deep = nested_at(one, 48, 14), both = nested_at(store_of(1, 2), 48, 14);
    struct result too_deep = refusal(HUB_TOO_DEEP, 1, 86 + 2 * 13);
    document_02("16 open in an element of a put", enters(putting(none, nested_at(request, 86, 13)), after, told_from(1, 1)));
    document_02("17 open in an element of a put", put_refused(putting(none, nested_at(request, 86, 14)), too_deep));
    paper("16 open in the store", enters(putting(deep, second), both, told_from(1, 2)));
    paper("17 open in the store", put_refused(putting(nested_at(one, 48, 15), second), refusal(HUB_TOO_DEEP, 0, 48 + 2 * 14)));
    add_elements(&elements, 1, OTHERS, 1000, 1);
    document_02("16 open in an element handed in",
                put_written(asking_put(nested_at(elements, 45, 13)), nested_at(request, 86, 13)));
    document_02("17 open in an element handed in",
                ask_put_refused(asking_put(nested_at(elements, 45, 14)), refusal(HUB_TOO_DEEP, 0, 45 + 2 * 13)));
}

/* Outside a user agent's objects stand the request and the user agent; outside a knowledge's, the message and its part, the
   knowledge and the specialized knowledge, whose objects begin at byte 22. */
static void depth_of_messages(void) {
    struct text none = store_of(1, 0), one = store_of(1, 1), request = put_of(1, 1), answer = told_from(1, 1);
    struct text agent = nested_at(request, 20, 14), known = with(request, 36, other_knowledge(12));
    paper("16 open in a put's user agent", enters(putting(none, agent), one, answer));
    paper("17 open in a put's user agent",
          put_refused(putting(none, nested_at(request, 20, 15)), refusal(HUB_TOO_DEEP, 1, 20 + 2 * 14)));
    paper("16 open in a put's knowledge", enters(putting(none, known), one, answer));
    paper("17 open in a put's knowledge",
          put_refused(putting(none, with(request, 36, other_knowledge(13))), refusal(HUB_TOO_DEEP, 1, 36 + 22 + 2 * 12)));
    paper("17 open in the knowledge of a put's answer", put_answer_read(put_answer_with(other_knowledge(13)), 25 + 13 * 3));
    paper("18 open in it",
          read_put_refused(put_answer_with(other_knowledge(14)), refusal(HUB_TOO_DEEP, 0, 28 + 22 + 2 * 13)));
}

int main(void) {
    elements_of_a_store();
    elements_of_a_put();
    elements_asked();
    ranges_told();
    ranges_known();
    depth_of_elements();
    depth_of_messages();
    return ended();
}
