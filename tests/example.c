/* The example of README.md, which has the lines between the two marks, and a test of it: a bench that knows nothing talks with a hub
   about the three elements of document 01, and has them all after as many answers as document 01 says. The exit status is 1 if
   a line is not ok. */
#include "../include/hub.h"
#include "build.h"
#include "limits.h"

#include <stdio.h>
#include <stdlib.h>
#include <string.h>

struct buffer {
    uint8_t *at;
    size_t room;
};

/* What a bench has: its book, and two buffers, for an answer and for the next book. */
struct bench {
    struct buffer book, next, out;
    size_t length; /* of the book */
};

static uint64_t answers;  /* how many were saved */
static uint64_t times;    /* how often memory was asked for */
static uint64_t fails_at; /* at which time there is none; 0: there always is some */

/* Gives the buffer exactly so much room: 0, and the buffer as it was, if there is no memory. What it had is not kept, and does not
   stay where it was. */
static int lengthen(struct buffer *b, size_t room) {
    uint8_t *other = ++times == fails_at ? NULL : malloc(room);
    if (other == NULL) {
        return 0;
    }
    free(b->at);
    b->at = other;
    b->room = room;
    return 1;
}

/* Where a bench would write both to its disk: whether the book is a store, and what is to be saved behind it is a knowledge. */
static void save(const struct bench *b, const uint8_t *knowledge, size_t known) {
    uint8_t request[32768];
    int good = hub_element(HUB_IN_STORE, b->book.at, b->length, UINT64_MAX, NULL, 0) == HUB_TOO_MANY;
    good = good && hub_ask(1, 0, NULL, 0, knowledge, known, request, sizeof request, NULL, 0) == HUB_DONE;
    answers += (uint64_t)good;
}

/* README.md has what follows. */
/* Keeps the answer in the book. */
static uint64_t keep(struct bench *b, size_t answer_len) {
    uint8_t report[HUB_REPORT_BYTES];
    if (!lengthen(&b->next, b->length + answer_len)) return HUB_OUTPUT_TOO_SHORT; /* there is no memory */
    uint64_t number = hub_keep(b->book.at, b->length, b->out.at, answer_len, b->next.at, b->next.room, report, sizeof report);
    if (number != HUB_DONE) return number;
    struct buffer old = b->book;
    b->book = b->next;
    b->next = old;
    b->length = hub_report_number(report, HUB_AT_LENGTH);
    return HUB_DONE;
}

/* Asks until an answer is unmarked: 256 times at most, as a store has no more elements and none comes twice. */
static uint64_t fetch(const uint8_t *store, size_t store_len, uint64_t limit, uint64_t offered, struct bench *b) {
    uint8_t request[32768], report[HUB_READ_REPORT_BYTES], *knowledge = NULL;
    size_t known = 0;
    uint64_t number;
    for (uint64_t id = 1; id <= 256; id++) {
        number = hub_ask(id, limit, NULL, 0, knowledge, known, request, sizeof request, report, sizeof report);
        if (number != HUB_DONE) return number;
        size_t asked = hub_report_number(report, HUB_AT_LENGTH);
        number = hub_length(store, store_len, request, asked, offered, report, sizeof report);
        if (number != HUB_DONE) return number;
        size_t length = hub_report_number(report, HUB_AT_LENGTH);
        if (!lengthen(&b->out, length)) return HUB_OUTPUT_TOO_SHORT; /* there is no memory */
        number = hub_write(store, store_len, request, asked, b->out.at, length, report, sizeof report);
        if (number != HUB_DONE) return number;
        number = hub_read(b->out.at, length, report, sizeof report);
        if (number != HUB_DONE) return number;
        if (hub_report_number(report, HUB_AT_ID) != id) return HUB_NOT_SERVED; /* an answer to another ask */
        number = keep(b, length);
        if (number != HUB_DONE) return number;
        knowledge = b->out.at + hub_report_number(report, HUB_AT_PLACE);
        known = hub_report_number(report, HUB_AT_LENGTH);
        save(b, knowledge, known); /* the book first, and the knowledge behind it */
        if (hub_report_number(report, HUB_AT_PARTIAL) == 0) return HUB_DONE;
    }
    return HUB_TOO_MANY; /* not by a hub of this kind, with one store */
}
/* README.md has what is above. */

/* A bench with an empty book. */
static struct bench new_bench(void) {
    static const uint8_t empty[4] = {0xAC, 0x02, 0x00, 0x55};
    struct bench b = {{room_for(sizeof empty), sizeof empty}, {NULL, 0}, {NULL, 0}, sizeof empty};
    memcpy(b.book.at, empty, sizeof empty);
    answers = times = fails_at = 0;
    return b;
}

static void free_bench(struct bench b) {
    free(b.book.at);
    free(b.next.at);
    free(b.out.at);
}

/* Whether the book is the store, byte for byte, after so many answers: all elements have one type, and so come in its order. */
static int has_all(const struct bench *b, struct text store, uint64_t awaited) {
    return answers == awaited && b->length == store.length && memcmp(b->book.at, store.at, store.length) == 0;
}

/* Whether a talk with so much offered for an answer brings all elements of the store after so many answers, for each of which memory
   was asked for twice. */
static int brings_all(unsigned elements, uint64_t limit, uint64_t offered, uint64_t awaited) {
    struct text store = store_of(7, elements);
    struct bench b = new_bench();
    int good = fetch(store.at, store.length, limit, offered, &b) == HUB_DONE && has_all(&b, store, awaited);
    good = good && times == 2 * awaited;
    free_bench(b);
    free(store.at);
    return good;
}

/* Of two elements one is long, the second or the first, and each comes by itself: the buffer is another at the second answer,
   longer or shorter, and the knowledge that was asked with stood in the first. It has just the last answer's length; an object of
   1,000,000 bytes has a start of 4 and a true length of 3 before it. */
static int moves_midway(size_t first, size_t second) {
    struct text elements = {0}, store = {0};
    struct bench b = new_bench();
    add_element(&elements, 1, SERIALS, 7, first);
    add_element(&elements, 2, SERIALS, 8, second);
    add_package(&store, elements);
    int good = fetch(store.at, store.length, 0, HUB_LARGEST_ANSWER, &b) == HUB_DONE && has_all(&b, store, 2);
    good = good && b.out.room == 132 + (second > 0 ? second + 7 : 0);
    free_bench(b);
    free(store.at);
    return good;
}

/* A store without its last end: the hub's refusal comes back, and no memory was asked for. */
static int stops(void) {
    struct text store = store_of(7, 3);
    struct bench b = new_bench();
    store.length--;
    int good = fetch(store.at, store.length, 0, HUB_LARGEST_ANSWER, &b) == HUB_RUNS_PAST && times == 0 && b.length == 4;
    free_bench(b);
    free(store.at);
    return good;
}

/* Less is offered than the smallest page needs: 14 comes back. */
static int offers_too_little(void) {
    struct text store = store_of(7, 3);
    struct bench b = new_bench();
    int good = fetch(store.at, store.length, HUB_NO_LIMIT, 131, &b) == HUB_OUTPUT_TOO_SHORT && times == 0 && b.length == 4;
    free_bench(b);
    free(store.at);
    return good;
}

/* There is no memory once, for an answer or for a book: 14 comes back, the book has what came before, and the next talk with the same
   buffers, which begins with no knowledge, brings all of it again. */
static int goes_on_later(uint64_t when, size_t held) {
    struct text store = store_of(7, 3);
    struct bench b = new_bench();
    fails_at = when;
    int good = fetch(store.at, store.length, 0, HUB_LARGEST_ANSWER, &b) == HUB_OUTPUT_TOO_SHORT && b.length == 4 + 46 * held;
    good = good && answers == held && memcmp(b.book.at, store.at, b.length - 1) == 0;
    answers = times = fails_at = 0;
    good = good && fetch(store.at, store.length, 0, HUB_LARGEST_ANSWER, &b) == HUB_DONE && has_all(&b, store, 3);
    free_bench(b);
    free(store.at);
    return good;
}

/* A book that would have the 257th element: hub_keep's refusal comes back, and the book is as it was. */
static int is_full(void) {
    struct text full = many_store(256, 0), store = store_of(7, 1);
    struct bench b = new_bench();
    free(b.book.at);
    b.book.at = full.at;
    b.length = b.book.room = full.length;
    int good = fetch(store.at, store.length, 0, HUB_LARGEST_ANSWER, &b) == HUB_TOO_MANY && answers == 0 && b.book.at == full.at;
    free_bench(b);
    free(store.at);
    return good;
}

int main(void) {
    paper("limit 0: three answers", brings_all(3, 0, HUB_LARGEST_ANSWER, 3));
    paper("limit 91: three", brings_all(3, 91, HUB_LARGEST_ANSWER, 3));
    paper("limit 92: two", brings_all(3, 92, HUB_LARGEST_ANSWER, 2));
    paper("limit 138: one", brings_all(3, 138, HUB_LARGEST_ANSWER, 1));
    beside("just what the smallest page needs is offered: three", brings_all(3, 138, 132, 3));
    beside("a byte less than the page of two needs: three", brings_all(3, 138, 132 + 46 - 1, 3));
    beside("what the page of two needs: two", brings_all(3, 138, 132 + 46, 2));
    beside("an empty store: one", brings_all(0, HUB_NO_LIMIT, 41, 1));
    beside("the second of two answers is longer", moves_midway(0, 1000000));
    beside("and shorter", moves_midway(1000000, 0));
    beside("a refusal ends the talk", stops());
    beside("and so does too little that is offered", offers_too_little());
    beside("no memory for an answer ends it, and it can be begun again", goes_on_later(1, 0) && goes_on_later(5, 2));
    beside("nor for a book", goes_on_later(2, 0) && goes_on_later(4, 1) && goes_on_later(6, 2));
    beside("a full book ends it", is_full());
    return ended();
}
