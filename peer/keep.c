/* The call by which a bench keeps an answer in its book: reads book and answer, decides the new book, and only then writes it. What
   enters keeps its bytes, its serial number too, so that all of it is copied. */
#include "answer_read.h"
#include "new_store.h"
#include "peer.h"
#include "report.h"

#include <string.h>

/* All that the new book is made of. */
struct work {
    struct store book;
    struct received answer;
    struct new_store made;
};

static uint64_t length_of(const struct new_store *made) {
    uint64_t length = PACKAGE_BYTES;
    unsigned i;
    for (i = 0; i < made->count; i++) {
        length += made->elements[i].element->length;
    }
    return length;
}

/* How many elements from this one on stand one behind the other where they are copied from; their bytes together. */
static unsigned run_from(const struct new_store *made, unsigned i, size_t *bytes) {
    const struct new_element *first = &made->elements[i];
    unsigned n = 0;
    *bytes = 0;
    while (i + n < made->count && first[n].enters == first->enters &&
           first[n].element->place == first->element->place + *bytes) {
        *bytes += first[n].element->length;
        n++;
    }
    return n;
}

static void put_new_book(uint8_t *p, const struct new_store *made, const uint8_t *book, const uint8_t *answer) {
    unsigned i, n;
    size_t bytes;
    p = put_package_start(p);
    for (i = 0; i < made->count; i += n, p += bytes) {
        const struct new_element *e = &made->elements[i];
        n = run_from(made, i, &bytes);
        memcpy(p, (e->enters ? answer : book) + e->element->place, bytes);
    }
    put_end(p, PACKAGE);
}

uint64_t peer_keep(const uint8_t *book, size_t book_len, const uint8_t *answer, size_t answer_len, uint8_t *new_book,
                   size_t new_book_len, uint8_t *report, size_t report_len) {
    struct work w;
    struct input in;
    uint64_t length;
    if (!begin_input(&in, book, book_len, LONGEST_INPUT) || !read_store(&in, &w.book)) {
        return tell_fault(&in, 0, report, report_len);
    }
    if (!begin_input(&in, answer, answer_len, LONGEST_ANSWER) || !read_answer(&in, TO_QUERY_CHANGES, &w.answer)) {
        return tell_fault(&in, 1, report, report_len);
    }
    if (enter_all(&w.made, &w.book, &w.answer.package) != 0) {
        return tell(TOO_MANY, report, report_len, 0, 0, 0);
    }
    length = length_of(&w.made);
    if (length > LONGEST_INPUT) {
        return tell(TOO_LONG, report, report_len, 0, 0, 0);
    }
    if (length > new_book_len) {
        return tell(OUTPUT_TOO_SHORT, report, report_len, 0, 0, length);
    }
    put_new_book(new_book, &w.made, book, answer);
    return tell(0, report, report_len, 0, 0, length);
}
