/* hub_put held to its limits: lengths, serial numbers up to 2^64-1, new stores of 16,777,216 bytes and one more, reports, empty
   slices. What enters and what stays is tried in put_entering.c. A line for each thing that is tried. `document 01` stands before
   the limits that document 01 itself gives, `document 02` before what its Q-1 says of puts. `beside it` stands before what is the
   project's own: room to spare and none, which refusal comes first, other reports, null pointers. The exit status is 1 if a line
   is not ok. */
#include "../include/hub.h"
#include "build.h"
#include "damage.h"
#include "lent.h"
#include "limits.h"
#include "puts.h"
#include "told.h"

#include <stdio.h>
#include <stdlib.h>
#include <string.h>

/* ---- lengths */

static void lengths(void) {
    struct text none = store_of(7, 0), one = store_of(1, 1), two = store_of(1, 2), nothing = put_of(1, 0), first = put_of(1, 1);
    struct text second = put_of(2, 1), empty = put_answer(NULL, 0);
    struct putting p = putting(none, nothing), q = putting(one, second);
    beside("a put of nothing is 44 bytes, its answer 35", nothing.length == 44 && empty.length == 35);
    document_02("nothing into an empty store", enters(p, none, empty));
    document_02("the first element: serial number 1, an answer of 80 bytes", enters(putting(none, first), one, told_from(1, 1)));
    document_02("the second: serial number 2", enters(q, two, told_from(1, 2)));
    p.new_room = 4;
    p.room = 35;
    q.new_room = 96;
    q.room = 80;
    beside("with room for no more", enters(p, none, empty) && enters(q, two, told_from(1, 2)));
    p.new_room = 3;
    q.new_room = 95;
    beside("one byte less for the new store", put_needs(p, 4) && put_needs(q, 96));
    p.new_room = 4096;
    q.new_room = 4096;
    p.room = 34;
    q.room = 79;
    beside("one byte less for the answer", put_needs(p, 35) && put_needs(q, 80));
}

/* ---- serial numbers */

/* A store of one element with the highest number, and of it with the next. */
static void no_number_left(void) {
    struct text top = store_of(UINT64_MAX, 1), below = store_of(UINT64_MAX - 1, 1), filled = store_of(UINT64_MAX - 1, 2);
    struct text one = put_of(2, 1), two = put_of(2, 2), nothing = put_of(2, 0), same = put_of(1, 1);
    struct result left = refusal(HUB_NO_SERIAL_LEFT, 0, 0);
    document_02("behind 2^64-2 there is one number", enters(putting(below, one), filled, told_from(UINT64_MAX - 1, UINT64_MAX)));
    document_02("and no second one", put_refused(putting(below, two), left));
    document_02("behind 2^64-1 there is none", put_refused(putting(top, one), left));
    document_02("nor for one that replaces it", put_refused(putting(top, same), left));
    document_02("it replaces the one with 2^64-2", enters(putting(below, same), top, told_from(UINT64_MAX, UINT64_MAX)));
    beside("nothing is still taken", enters(putting(top, nothing), top, told_from(UINT64_MAX, UINT64_MAX)));
}

/* ---- the longest stores and puts */

static void longest_new_store(void) {
    struct text fits = long_store(LONGEST - 46), over = long_store(LONGEST - 45), request = put_of(2, 1), elements = {0};
    add_element(&elements, 1, SERIALS, 7, LONGEST - 46 - 58);
    add_element(&elements, 2, SERIALS, 8, 0);
    struct text after = store_around(elements);
    struct putting p = putting(fits, request), q = putting(over, request);
    beside("it is as long as it should be", after.length == LONGEST);
    document_02("a new store of 16,777,216 bytes", enters(p, after, told_from(7, 8)));
    p.new_room = LONGEST - 1;
    beside("no room for it", put_needs(p, LONGEST));
    document_02("a new store of 16,777,217 bytes", put_refused(q, refusal(HUB_INPUT_TOO_LONG, 0, 0)));
    q.new_room = q.room = 0;
    beside("and with no room", put_refused(q, refusal(HUB_INPUT_TOO_LONG, 0, 0)));
    free(fits.at);
    free(over.at);
    free(after.at);
}

/* The room of the longest store is used again. */
static void longest_store(void) {
    struct text store = long_store(LONGEST), over = long_store(LONGEST + 1), same = put_of(1, 1), nothing = put_of(1, 0), no = {0};
    paper("a store of 16,777,216 bytes, and nothing", enters(putting(store, nothing), store, told_from(7, 7)));
    beside("its element replaced by a short one", enters(putting(store, same), store_of(8, 1), told_from(8, 8)));
    paper("a store of 16,777,217 bytes", put_refused(putting(over, same), refusal(HUB_INPUT_TOO_LONG, 0, LONGEST)));
    beside("and before the put's faults", put_refused(putting(over, no), refusal(HUB_INPUT_TOO_LONG, 0, LONGEST)));
    free(store.at);
    free(over.at);
}

/* A put whose one element has a long object inside: 98 bytes are around that, 58 of the new store's. */
static struct text long_put(size_t n) {
    struct text elements = {0};
    add_element(&elements, 1, OTHERS, 1, n - 98);
    return put_around(0, elements);
}

static void longest_put(void) {
    struct text request = long_put(LONGEST), over = long_put(LONGEST + 1), none = store_of(1, 0), no = {0}, elements = {0};
    add_element(&elements, 1, SERIALS, 1, LONGEST - 98);
    struct text after = store_around(elements);
    beside("they are as long as they should be", request.length == LONGEST && over.length == LONGEST + 1);
    paper("a put of 16,777,216 bytes", enters(putting(none, request), after, told_from(1, 1)));
    paper("a put of 16,777,217 bytes", put_refused(putting(none, over), refusal(HUB_INPUT_TOO_LONG, 1, LONGEST)));
    beside("behind the store's faults", put_refused(putting(no, over), refusal(HUB_RUNS_PAST, 0, 0)));
    free(request.at);
    free(over.at);
    free(after.at);
}

/* ---- reports, and empty slices */

/* A put that enters, and a refusal, with a report of this length. */
static int both_reported(size_t length) {
    struct text store = store_of(7, 1), after = store_of(7, 2), request = put_of(2, 1);
    struct putting p = putting(store, request), q = p;
    p.report = q.report = length;
    q.room = 79;
    int good = enters(p, after, told_from(7, 8)) && put_needs(q, 80);
    q.new_room = 95;
    return good && put_needs(q, 96);
}

static void reports(void) {
    beside("no report", both_reported(0));
    beside("a report of 23 bytes", both_reported(HUB_REPORT_BYTES - 1));
    beside("a report of 24 bytes", both_reported(HUB_REPORT_BYTES));
    beside("a report of 31 bytes", both_reported(HUB_PUT_REPORT_BYTES - 1));
    beside("a report of 32 bytes", both_reported(HUB_PUT_REPORT_BYTES));
    beside("a report of 40 bytes", both_reported(40));
}

static void empty_slices(void) {
    struct text nothing = {0}, store = store_of(7, 1), request = put_of(2, 1);
    beside("five null pointers", hub_put(NULL, 0, NULL, 0, 0, 0, NULL, 0, NULL, 0, NULL, 0) == HUB_RUNS_PAST);
    beside("no store", put_refused(putting(nothing, request), refusal(HUB_RUNS_PAST, 0, 0)));
    beside("no put", put_refused(putting(store, nothing), refusal(HUB_RUNS_PAST, 1, 0)));
}

int main(void) {
    lengths();
    no_number_left();
    longest_new_store();
    longest_store();
    longest_put();
    reports();
    empty_slices();
    return ended();
}
