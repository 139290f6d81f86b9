/* Books and answers that are kept in them, made of decisions. An answer's package is made as any, but that its elements often have
   ids of the book, with the serial numbers that the book has, or others; in both some share serial numbers. */
#include "make_inner.h"

#include <string.h>

void make_keep(struct maker *m, struct text *book, struct text *answer) {
    make_store(m, book);
    memcpy(m->book, m->ids, m->elements * sizeof *m->ids);
    m->booked = m->elements;
    make_answer(m, answer);
    m->booked = 0;
}

/* The ids of the answer go on where those of the book end, or begin among them. */
void make_many_keep(struct maker *m, struct text *book, struct text *answer) {
    struct text package = {0};
    unsigned whole = 255 + (unsigned)luck_below(&m->luck, 4), from = (unsigned)luck_below(&m->luck, whole);
    unsigned stored = from + (unsigned)luck_below(&m->luck, luck_one_in(&m->luck, 2) ? 3 : 120);
    unsigned sharing = luck_one_in(&m->luck, 2) ? 1 : 2 + (unsigned)luck_below(&m->luck, 300);
    plain_start(book, 0x15, 1, 1);
    text_byte(book, 0);
    add_plain(book, 0, stored < 256 ? stored : 256, 1, sharing, stored);
    plain_end(book, 0x15);
    plain_start(&package, 0x15, 1, 1);
    text_byte(&package, 0);
    add_plain(&package, from, whole - from > 256 ? from + 256 : whole, 5, sharing, from);
    plain_end(&package, 0x15);
    plain_answer(answer, &package);
    text_free(&package);
}
