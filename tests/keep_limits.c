/* hub_keep held to its limits: rooms, 256 and 257 elements, new books of 16,777,216 bytes and one more, the longest answers, which
   refusal comes first, reports, empty slices. What enters and what stays is tried in keep_entering.c. `document 01` stands before
   the limits that document 01 itself gives, `beyond the documents` before what was asked for in neither, `beside it` before what is
   the project's own. The exit status is 1 if a line is not ok. */
#include "../include/hub.h"
#include "build.h"
#include "damage.h"
#include "keeps.h"
#include "lent.h"
#include "limits.h"
#include "told.h"

#include <stdio.h>
#include <stdlib.h>
#include <string.h>

#define LONGEST_ANSWER ((size_t)HUB_LONGEST_ANSWER_READ)

static struct keeping with_room(struct keeping k, size_t room) {
    k.room = room;
    return k;
}

/* ---- rooms */

static void rooms(void) {
    struct text none = store_of(7, 0), one = store_of(7, 1), two = store_of(7, 2), nothing = answer_of(1, 1, 0);
    struct keeping k = keeping(none, nothing), q = keeping(one, answer_of(2, 8, 1));
    beside("an empty book is 4 bytes, an answer with nothing 41", none.length == 4 && nothing.length == 41);
    beyond("with room for no more", keeps(with_room(k, 4), none) && keeps(with_room(q, 96), two));
    beyond("one byte less", keep_needs(with_room(k, 3), 4) && keep_needs(with_room(q, 95), 96));
    beyond("no room", keep_needs(with_room(k, 0), 4) && keep_needs(with_room(q, 0), 96));
    beyond("room to spare", keeps(with_room(k, 5), none) && keeps(with_room(q, 4096), two));
}

/* ---- 256 and 257 elements: those of many_store, whose ids count up from 0x20, 47 bytes each */

/* n of them from this one on. */
static struct text many_from(unsigned first, unsigned n) {
    struct text elements = {0}, part = {0};
    add_many_elements(&elements, SERIALS, 7, first + n, 0);
    add(&part, elements.at + 47 * first, 47 * n);
    free(elements.at);
    return part;
}

/* A book of the first n, and an answer with those from the m-th on, so many: whether the book then has them all, or is full. */
static int fill(unsigned n, unsigned from, unsigned count) {
    unsigned whole = from + count > n ? from + count : n;
    struct keeping k = keeping(book_around(many_from(0, n)), answer_around(many_from(from, count)));
    struct text all = book_around(many_from(0, whole));
    int good = whole <= 256 ? keeps(k, all) : keep_refused(k, refusal(HUB_TOO_MANY, 0, 0));
    free(k.book.at);
    free(k.answer.at);
    free(all.at);
    return good;
}

static void elements(void) {
    beyond("the 256th element", fill(255, 255, 1) && fill(0, 0, 256) && fill(1, 1, 255));
    beyond("256 into 256", fill(256, 0, 256));
    beyond("the 257th element", fill(256, 256, 1) && fill(255, 255, 2) && fill(1, 1, 256));
    beyond("256 of which one is new, into 256 and into 255", fill(256, 1, 256) && fill(255, 0, 256));
    struct text over = answer_around(many_from(0, 257)), many = book_around(many_from(0, 257)), none = store_of(7, 0);
    paper("an answer of 257 elements", keep_refused(keeping(none, over), refusal(HUB_TOO_MANY, 1, 20 + 47 * 256)));
    paper("a book of 257 elements", keep_refused(keeping(many, over), refusal(HUB_TOO_MANY, 0, 3 + 47 * 256)));
    struct text last = answer_around(many_from(256, 1)), full = book_around(many_from(0, 256));
    beside("9 before 14", keep_refused(with_room(keeping(full, last), 0), refusal(HUB_TOO_MANY, 0, 0)));
}

/* ---- the longest books */

/* A book of one long element, and one more of 46 bytes that came. */
static void longest_new_book(void) {
    struct text fits = long_store(LONGEST - 46), over = long_store(LONGEST - 45), came = answer_of(2, 8, 1), elements = {0};
    add_element(&elements, 1, SERIALS, 7, LONGEST - 46 - 58);
    add_element(&elements, 2, SERIALS, 8, 0);
    struct text after = book_around(elements);
    struct keeping k = keeping(fits, came), q = keeping(over, came);
    struct result too_long = refusal(HUB_INPUT_TOO_LONG, 0, 0);
    beside("it is as long as it should be", after.length == LONGEST);
    beyond("a new book of 16,777,216 bytes", keeps(k, after) && keeps(with_room(k, LONGEST), after));
    beyond("no room for it", keep_needs(with_room(k, LONGEST - 1), LONGEST));
    beyond("a new book of 16,777,217 bytes", keep_refused(q, too_long));
    beyond("1 before 14", keep_refused(with_room(q, 0), too_long) && keep_refused(with_room(q, LONGEST), too_long));
    free(fits.at);
    free(over.at);
    free(after.at);
}

/* The room of the longest book is used again, and a byte more is too much. */
static void longest_book(void) {
    struct text book = long_store(LONGEST), over = long_store(LONGEST + 1), same = long_answer(LONGEST), brief = answer_of(1, 8, 1);
    struct text longer = long_answer(LONGEST + 1), none = store_of(7, 0), no = {0};
    paper("a book of 16,777,216 bytes, and nothing", keeps(keeping(book, answer_of(1, 1, 0)), book));
    beside("its element replaced by one of as many bytes", keeps(keeping(book, same), book));
    beside("by a short one", keeps(keeping(book, brief), store_of(8, 1)));
    beyond("by one of a byte more", keep_refused(keeping(book, longer), refusal(HUB_INPUT_TOO_LONG, 0, 0)));
    beyond("all of it from an answer", keeps(keeping(none, same), book));
    paper("a book of 16,777,217 bytes", keep_refused(keeping(over, brief), refusal(HUB_INPUT_TOO_LONG, 0, LONGEST)));
    beside("and before the answer's faults", keep_refused(keeping(over, no), refusal(HUB_INPUT_TOO_LONG, 0, LONGEST)));
    struct text others = answer_around(many_from(0, 256));
    beside("9 before 1", keep_refused(keeping(book, others), refusal(HUB_TOO_MANY, 0, 0)));
    free(book.at);
    free(over.at);
    free(same.at);
    free(longer.at);
}

/* Around the elements of an answer with one range are 86 bytes, around those of a book 4. */
static void longest_answer(void) {
    struct text none = store_of(7, 0), longest = long_answer(LONGEST_ANSWER - 82), over = long_answer(LONGEST_ANSWER - 81), no = {0};
    beside("they are as long as they should be", longest.length == LONGEST_ANSWER && over.length == LONGEST_ANSWER + 1);
    beyond("an answer of 16,842,752 bytes is read, and too long for a book",
           keep_refused(keeping(none, longest), refusal(HUB_INPUT_TOO_LONG, 0, 0)));
    paper("an answer of 16,842,753 bytes", keep_refused(keeping(none, over), refusal(HUB_INPUT_TOO_LONG, 1, LONGEST_ANSWER)));
    beside("behind the book's faults", keep_refused(keeping(no, over), refusal(HUB_RUNS_PAST, 0, 0)));
    free(longest.at);
    free(over.at);
}

/* ---- reports and empty slices */

static void reports(void) {
    static const size_t lengths[] = {0, 1, 8, 16, 23, 24, 25, 31, 32, 88, 100};
    struct text one = store_of(7, 1), two = store_of(7, 2), came = answer_of(2, 8, 1);
    int good = 1;
    for (size_t i = 0; i < sizeof lengths / sizeof *lengths; i++) {
        struct keeping k = keeping(one, came), q = keeping(one, put(came, 20, 0));
        k.report = q.report = lengths[i];
        good = good && keeps(k, two) && keep_needs(with_room(k, 10), 96);
        good = good && keep_refused(q, refusal(HUB_WRONG_LAYOUT, 1, 20));
    }
    beyond("reports of other lengths have as many numbers as there is room for", good);
}

static void nothing_handed_in(void) {
    struct text none = {0}, one = store_of(7, 1), came = answer_of(2, 8, 1);
    beside("no book", keep_refused(keeping(none, came), refusal(HUB_RUNS_PAST, 0, 0)));
    beside("no answer", keep_refused(keeping(one, none), refusal(HUB_RUNS_PAST, 1, 0)));
    beside("neither", keep_refused(keeping(none, none), refusal(HUB_RUNS_PAST, 0, 0)));
    beside("null pointers alone", hub_keep(NULL, 0, NULL, 0, NULL, 0, NULL, 0) == HUB_RUNS_PAST);
}

int main(void) {
    rooms();
    elements();
    longest_new_book();
    longest_book();
    longest_answer();
    reports();
    nothing_handed_in();
    return ended();
}
