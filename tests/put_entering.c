/* What hub_put makes of a store: what enters and where, with which serial number, behind which header, and what stays as it was;
   which storage index is expected; what comes with a put and does not count. `document 02` stands before what Q-1 says of it,
   `beside it` before what is the project's own (docs/DECISIONS.md, D-86). The exit status is 1 if a line is not ok. */
#include "../include/hub.h"
#include "build.h"
#include "damage.h"
#include "limits.h"
#include "puts.h"
#include "told.h"

#include <stdio.h>
#include <stdlib.h>
#include <string.h>

/* ---- what is replaced, and what stays */

/* Three elements, of which the put has the second with an object inside, and two new ones. */
static void replaced(void) {
    struct range known[2] = {{SERIALS, 7, 7}, {SERIALS, 9, 12}};
    struct text before = store_of(7, 3), elements = {0}, entering = {0};
    add_element(&entering, 9, OTHERS, 5, 0);
    add_element(&entering, 2, OTHERS, 6, 200);
    add_element(&entering, 8, OTHERS, 7, 0);
    add_element(&elements, 1, SERIALS, 7, 0);
    add_element(&elements, 2, SERIALS, 11, 200);
    add_element(&elements, 3, SERIALS, 9, 0);
    add_element(&elements, 9, SERIALS, 10, 0);
    add_element(&elements, 8, SERIALS, 12, 0);
    struct text after = store_around(elements), request = put_around(0, entering);
    document_02("one replaced in its place, two new ones at the end, serial numbers in the put's order",
                enters(putting(before, request), after, put_answer(known, 2)));
    free(before.at);
    free(after.at);
    free(request.at);
}

/* The room of what is replaced is used again: a longer one by a shorter one, and the other way round. */
static void room_used_again(void) {
    struct text brief = {0}, lengthy = {0}, entering = {0};
    add_element(&brief, 1, SERIALS, 8, 0);
    add_element(&lengthy, 1, SERIALS, 7, 1000);
    struct text shorter = store_around(brief), longer = store_around(lengthy), request = put_of(1, 1);
    document_02("a long one replaced by a short one", enters(putting(longer, request), shorter, told_from(8, 8)));
    add_element(&entering, 1, OTHERS, 1, 1000);
    struct text back = put_around(0, entering), again = put(longer, 39, 9); /* at 39 its serial number */
    document_02("and back", enters(putting(shorter, back), again, told_from(9, 9)));
    free(shorter.at);
    free(longer.at);
    free(request.at);
    free(back.at);
    free(again.at);
}

/* An element, 48 bytes long, whose start is of four bytes: 0x56 is the upper byte of a short start, 43 << 1. */
static struct text with_long_start(struct text t, size_t at) {
    struct text start = {0}, rest = without(t, at, 2);
    add_le(&start, 4, 2 | 1 << 2 | ELEMENT << 3 | 43 << 17);
    return with(rest, at, start);
}

/* Of an element the start is at 3 of a store and at 41 of a put, its type at 47. */
static void starts_and_padding(void) {
    struct text one = store_of(1, 1), two = store_of(1, 2), none = store_of(1, 0), first = put_of(1, 1), second = put_of(2, 1);
    struct text long_put = with_long_start(first, 41), long_stored = with_long_start(one, 3), both = with_long_start(two, 3);
    document_02("behind the shortest header", enters(putting(none, long_put), one, told_from(1, 1)));
    beside("what stays keeps its longer header", enters(putting(long_stored, second), both, told_from(1, 2)));
    struct text padded = put(one, 47, 0x01), padded_both = put(two, 47, 0x01), reserved = put(none, 2, 0xFF);
    beside("and its padded number", enters(putting(padded, second), padded_both, told_from(1, 2)));
    beside("the package's byte is 0 again", enters(putting(reserved, first), one, told_from(1, 1)));
    beside("a padded number in a put is 3 at it",
           put_refused(putting(none, put(first, 85, 0x01)), refusal(HUB_NO_FORM, 1, 85)));
}

/* A put with no package: 38 bytes up to where it would stand, and the request's end. */
static void nothing_enters(void) {
    struct text none = store_of(7, 0), one = store_of(7, 1), empty = put_of(1, 0), absent = without(empty, 38, 4);
    struct text first = told_from(7, 7);
    beside("a package with no element", enters(putting(one, empty), one, first));
    beside("no package", absent.length == 40 && enters(putting(one, absent), one, first));
    beside("no package into an empty store", enters(putting(none, absent), none, put_answer(NULL, 0)));
}

/* All that may stand behind 0x5A, at 36: additional flags, a lock's id, a knowledge, a diagnostic byte. */
static void all_that_may_be_there(void) {
    struct range three[1] = {{SERIALS, 3, 3}};
    struct text parts = {0}, none = store_of(1, 0), one = store_of(1, 1);
    add_start(&parts, ADDITIONAL_FLAGS, 0, 3);
    add_le(&parts, 3, 0);
    add_start(&parts, LOCK_ID, 0, 16);
    add_like(&parts, 16, 0x4C);
    add_knowledge(&parts, three, 1);
    add_start(&parts, DIAGNOSTIC, 0, 1);
    add_byte(&parts, 0xFF);
    beside("all that may stand behind the arguments", enters(putting(none, with(put_of(1, 1), 36, parts)), one, told_from(1, 1)));
}

/* ---- the storage index: the first element of type 1, which stands at 47 of a store */

static void index_expected(void) {
    struct text one = store_of(7, 1), index = put(one, 47, 1 << 1 | 1), two = put(store_of(7, 2), 47, 1 << 1 | 1);
    struct text elements = {0}, brought = {0}, none = store_of(1, 0), first = store_of(1, 1);
    add_elements(&elements, 2, OTHERS, 1, 1);
    document_02("the index that is expected is there", enters(putting(index, put_around(1, elements)), two, told_from(7, 8)));
    add_elements(&brought, 1, OTHERS, 1, 1);
    brought.at[44] = 1 << 1 | 1;
    document_02("none is expected, and the put brings one",
                enters(putting(none, put_around(0, brought)), put(first, 47, 1 << 1 | 1), told_from(1, 1)));
    struct text filled = put_of(1, 1);
    filled.at[33] = 1 << 3 | 4; /* the storage index that is not used, its sixteen bytes behind it */
    filled.at[31] = 19 << 1;
    struct text guid = {0};
    add_like(&guid, 16, 0x99);
    beside("the other one is not looked at", enters(putting(none, with(filled, 34, guid)), first, told_from(1, 1)));
}

/* ---- names that came */

/* The first element of a put at 41: its id at 43, serial number at 60. */
static void names_that_came(void) {
    struct text none = store_of(1, 0), one = store_of(1, 1), two = store_of(1, 2), single = put_of(1, 1), pair = put_of(1, 2);
    struct text null_number = null_serial(single, 41), same = put(pair, 87 + 36, 1000 % 256), stored = {0};
    document_02("a null serial number that came", enters(putting(none, null_number), one, told_from(1, 1)));
    document_02("a serial number that came twice", enters(putting(none, same), two, told_from(1, 2)));
    add_elements(&stored, 2, SERIALS, 1, 1);
    beside("one that the store has", enters(putting(one, put_around(0, stored)), two, told_from(1, 2)));
    document_02("a null id is 10", put_refused(putting(none, null_id(single, 41)), refusal(HUB_NULL_NAME, 1, 43)));
    document_02("an id twice is 11", put_refused(putting(none, put(pair, 89, 1 << 3 | 4)), refusal(HUB_SEEN_BEFORE, 1, 89)));
}

/* ---- serial numbers */

/* The highest under the hub's GUID alone, over all elements of the store as it was. */
static void highest(void) {
    struct range known[2] = {{SERIALS, 1, 1}, {OTHERS, UINT64_MAX, UINT64_MAX}}, two[2] = {{SERIALS, 5, 5}, {SERIALS, 71, 72}};
    struct text others = {0}, after = {0}, gaps = {0}, filled = {0}, entering = {0};
    add_element(&others, 1, OTHERS, UINT64_MAX, 0);
    add_element(&after, 1, OTHERS, UINT64_MAX, 0);
    add_element(&after, 2, SERIALS, 1, 0);
    document_02("numbers of another GUID do not count",
                enters(putting(store_around(others), put_of(2, 1)), store_around(after), put_answer(known, 2)));
    add_element(&gaps, 1, SERIALS, 70, 0);
    add_element(&gaps, 2, SERIALS, 5, 0);
    add_element(&entering, 1, OTHERS, 1, 0);
    add_element(&entering, 3, OTHERS, 1, 0);
    add_element(&filled, 1, SERIALS, 71, 0);
    add_element(&filled, 2, SERIALS, 5, 0);
    add_element(&filled, 3, SERIALS, 72, 0);
    beside("that of one that is replaced counts, and gaps are not filled",
           enters(putting(store_around(gaps), put_around(0, entering)), store_around(filled), put_answer(two, 2)));
}

/* Whether the first element gets its serial number under the GUID with these bytes: behind the first byte of its serial number, at
   22, and behind the header of its range, at 24 of the knowledge at 28 of the answer. */
static int enters_under(const uint8_t *guid, uint64_t low, uint64_t high) {
    struct text one = store_of(1, 1), answer = told_from(1, 1);
    struct putting p = putting(store_of(1, 0), put_of(1, 1));
    memcpy(one.at + 23, guid, 16);
    memcpy(answer.at + 28 + 26, guid, 16);
    p.low = low;
    p.high = high;
    int good = enters(p, one, answer);
    free(one.at);
    free(answer.at);
    return good;
}

/* The two numbers have the lowest byte first. */
static void halves(void) {
    static const uint8_t counted[16] = {1, 2, 3, 4, 5, 6, 7, 8, 9, 10, 11, 12, 13, 14, 15, 16}, zero[16] = {0};
    beside("the two halves of the hub's GUID", enters_under(counted, 0x0807060504030201u, 0x100F0E0D0C0B0A09u));
    beside("a GUID of zeros", enters_under(zero, 0, 0));
}

int main(void) {
    replaced();
    room_used_again();
    starts_and_padding();
    nothing_enters();
    all_that_may_be_there();
    index_expected();
    names_that_came();
    highest();
    halves();
    return ended();
}
