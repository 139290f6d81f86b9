/* What hub_keep makes of a book: what enters and where, that every element keeps its bytes, and how the package is written; what
   comes with an answer and does not count. `beyond the documents` stands before what was asked for in neither of the two, `beside
   it` before what is the project's own. The exit status is 1 if a line is not ok. */
#include "../include/hub.h"
#include "build.h"
#include "damage.h"
#include "keeps.h"
#include "limits.h"
#include "told.h"

#include <stdio.h>
#include <stdlib.h>
#include <string.h>

/* ---- what is replaced, and what stays */

/* Three elements, of which the answer has the second with an object inside, and two new ones. */
static void replaced(void) {
    struct text book = store_of(7, 3), came = {0}, after = {0};
    add_element(&came, 9, OTHERS, 5, 0);
    add_element(&came, 2, OTHERS, 6, 200);
    add_element(&came, 8, SERIALS, 70, 0);
    add_element(&after, 1, SERIALS, 7, 0);
    add_element(&after, 2, OTHERS, 6, 200);
    add_element(&after, 3, SERIALS, 9, 0);
    add_element(&after, 9, OTHERS, 5, 0);
    add_element(&after, 8, SERIALS, 70, 0);
    struct text answer = answer_around(came), new_book = book_around(after);
    beyond("one replaced in its place, two new ones at the end in the answer's order, serial numbers as they came",
           keeps(keeping(book, answer), new_book));
    beyond("the same answer again changes nothing more", keeps(keeping(new_book, answer), new_book));
    free(book.at);
    free(answer.at);
    free(new_book.at);
}

/* A long element replaced by a short one, and the other way round, between two others. */
static void other_lengths(void) {
    struct text brief = {0}, lengthy = {0}, short_came = {0}, long_came = {0};
    for (unsigned id = 1; id <= 3; id++) {
        add_element(&brief, id, SERIALS, id, 0);
        add_element(&lengthy, id, SERIALS, id, id == 2 ? 1000 : 0);
    }
    add_element(&short_came, 2, SERIALS, 2, 0);
    add_element(&long_came, 2, SERIALS, 2, 1000);
    struct text shorter = book_around(brief), longer = book_around(lengthy);
    struct text short_answer = answer_around(short_came), long_answer = answer_around(long_came);
    beyond("a long one replaced by a short one", keeps(keeping(longer, short_answer), shorter));
    beyond("and back, each with the serial number of before", keeps(keeping(shorter, long_answer), longer));
    free(shorter.at);
    free(longer.at);
    free(short_answer.at);
    free(long_answer.at);
}

/* Every element of the book replaced, the last one first; and all of them new. */
static void all_of_them(void) {
    struct text came = {0}, after = {0}, none = store_of(7, 0), book = store_of(7, 3), both = {0};
    for (unsigned i = 3; i > 0; i--) {
        add_element(&came, i, OTHERS, 20 - i, 0);
        add_element(&after, 4 - i, OTHERS, 20 - (4 - i), 0);
    }
    add(&both, came.at, came.length);
    struct text answer = answer_around(came), new_book = book_around(after), as_they_came = book_around(both);
    beyond("all replaced: the book's order stays", keeps(keeping(book, answer), new_book));
    beyond("all new: the answer's order", keeps(keeping(none, answer), as_they_came));
    beyond("nothing came", keeps(keeping(book, answer_of(1, 1, 0)), book));
    beyond("nothing into an empty book", keeps(keeping(none, answer_of(1, 1, 0)), none));
    free(answer.at);
    free(new_book.at);
    free(as_they_came.at);
}

/* ---- bytes that stay as they are */

/* The element that stands at a place with a start of four bytes: 0x56 is the upper byte of a short start, 43 << 1. */
static struct text with_long_start(struct text t, size_t at) {
    struct text start = {0}, rest = without(t, at, 2);
    add_le(&start, 4, 2 | 1 << 2 | ELEMENT << 3 | 43 << 17);
    return with(rest, at, start);
}

/* Of an element the start is at 3 of a book and at 20 of an answer, its type 44 bytes behind. */
static void starts_and_padding(void) {
    struct text book = store_of(1, 2), one = store_of(1, 1), none = store_of(1, 0), first = answer_of(1, 1, 1);
    struct text second = answer_of(2, 2, 1);
    beyond("a longer start that came", keeps(keeping(none, with_long_start(first, 20)), with_long_start(one, 3)));
    beyond("and one that stays", keeps(keeping(with_long_start(one, 3), second), with_long_start(book, 3)));
    beyond("a padded number that came", keeps(keeping(book, put(second, 20 + 44, 0x01)), put(book, 49 + 44, 0x01)));
    beyond("and one that stays", keeps(keeping(put(one, 47, 0x01), second), put(book, 47, 0x01)));
    beside("14 open objects inside", keeps(keeping(none, nested_at(first, 20 + 45, 14)), nested_at(one, 3 + 45, 14)));
}

/* The package of a book with a start of four bytes and a padded true length, another reserved byte and a long end. */
static void package_anew(void) {
    struct text elements = {0}, longer = {0}, book = store_of(1, 2), second = answer_of(2, 2, 1), one = store_of(1, 1);
    add_elements(&elements, 1, SERIALS, 1, 1);
    add_le(&longer, 4, 2 | 1 << 2 | PACKAGE << 3 | (uint64_t)32767 << 17);
    add_le(&longer, 2, 6); /* the true length 1, padded */
    add_byte(&longer, 0xFF);
    add_text(&longer, &elements);
    add_le(&longer, 2, PACKAGE << 2 | 3);
    beyond("the package is written anew", keeps(keeping(longer, second), book));
    beyond("where nothing came too", keeps(keeping(longer, answer_of(1, 1, 0)), one));
    beside("the answer's reserved byte does not count", keeps(keeping(one, put(second, 19, 0xFF)), book));
}

/* ---- serial numbers replace nothing */

static void groups_kept(void) {
    struct text came = {0}, after = {0}, book = store_of(7, 1);
    add_element(&came, 2, SERIALS, 7, 0);
    add_element(&came, 3, SERIALS, 7, 10);
    add_element(&after, 1, SERIALS, 7, 0);
    add_element(&after, 2, SERIALS, 7, 0);
    add_element(&after, 3, SERIALS, 7, 10);
    struct text answer = answer_around(came), new_book = book_around(after);
    beyond("two with one serial number, which one in the book has", keeps(keeping(book, answer), new_book));
    beyond("a member that comes again with its number", keeps(keeping(new_book, answer), new_book));
    struct text left = {0}, leaves = {0};
    add_element(&left, 2, SERIALS, 8, 0);
    add_element(&leaves, 1, SERIALS, 7, 0);
    add_element(&leaves, 2, SERIALS, 8, 0);
    add_element(&leaves, 3, SERIALS, 7, 10);
    beyond("one that left its group", keeps(keeping(new_book, answer_around(left)), book_around(leaves)));
    free(answer.at);
    free(new_book.at);
}

/* ---- what does not count */

/* Types do not either: the storage index follows where it is new, and gives its place up to whatever has its id. */
static void does_not_count(void) {
    struct range known[2] = {{SERIALS, 1, 1}, {OTHERS, 5, UINT64_MAX}};
    struct text one = store_of(1, 1), two = store_of(1, 2), elements = {0}, partial = {0}, second = answer_of(2, 2, 1);
    add_elements(&elements, 2, SERIALS, 2, 1);
    add_answer(&partial, elements, 1, known, 2);
    beside("the mark and the knowledge", keeps(keeping(one, partial), two));
    struct text index = put(second, 20 + 44, 1 << 1 | 1), held = put(two, 49 + 44, 1 << 1 | 1);
    beside("a storage index behind what was there", keeps(keeping(one, index), held));
    beside("and replaced by another type", keeps(keeping(held, second), two));
    free(partial.at);
}

int main(void) {
    replaced();
    other_lengths();
    all_of_them();
    starts_and_padding();
    package_anew();
    groups_kept();
    does_not_count();
    return ended();
}
