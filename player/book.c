/* The book (book.h). */
#include "book.h"
#include "../include/hub.h"
#include "files.h"
#include "report.h"
#include "status.h"

#include <stdio.h>
#include <stdlib.h>
#include <string.h>

/* A book with nothing in it. */
static const uint8_t empty[4] = {0xAC, 0x02, 0x00, 0x55};

/* ---- the seal */

#define SEAL_ROOM 96u

/* A sum that tells apart what accidents make (64-bit FNV-1a); nobody is kept from making a seal by hand. */
static uint64_t sum_over(uint64_t sum, const struct bytes *b) {
    for (size_t i = 0; i < b->length; i++) {
        sum = (sum ^ b->at[i]) * 0x100000001B3u;
    }
    return sum;
}

/* The line for a book and its knowledge, and how long it is. */
static size_t seal(char *line, const struct bytes *package, const struct bytes *knowledge) {
    uint64_t sum = sum_over(sum_over(0xCBF29CE484222325u, package), knowledge);
    int n = snprintf(line, SEAL_ROOM, "knowledge of a book of %zu bytes, sum %016llx\n", package->length,
                     (unsigned long long)sum);
    return n > 0 && (size_t)n < SEAL_ROOM ? (size_t)n : 0;
}

/* Takes the knowledge from the bytes of its file, if the seal is that of this book with it. */
static void unseal(struct book *b, const struct bytes *file) {
    char line[SEAL_ROOM];
    const uint8_t *end = file->length > 0 ? memchr(file->at, '\n', file->length) : NULL;
    if (end != NULL) {
        size_t front = (size_t)(end - file->at) + 1;
        bytes_add(&b->knowledge, file->at + front, file->length - front);
        size_t n = seal(line, &b->package, &b->knowledge);
        if (n == front && memcmp(line, file->at, n) == 0) {
            return;
        }
    }
    b->knowledge.length = 0;
    b->passed_over = 1;
}

/* ---- reading */

static int open_knowledge(struct book *b) {
    struct bytes file = {NULL, 0, 0};
    char *name = name_with(b->name, ".knowledge");
    int there = 0;
    int status = file_read_if_there(name, HUB_LONGEST_INPUT + SEAL_ROOM, &file, &there);
    if (status == ENDED_WELL && there) {
        unseal(b, &file);
    }
    bytes_free(&file);
    free(name);
    return status;
}

int book_open(struct book *b, const char *name) {
    uint8_t report[HUB_REPORT_BYTES] = {0};
    memset(b, 0, sizeof *b);
    b->name = name;
    int status = file_read_if_there(name, HUB_LONGEST_INPUT, &b->package, &b->there);
    if (status == ENDED_WELL && !b->there) {
        bytes_add(&b->package, empty, sizeof empty);
    }
    if (status == ENDED_WELL) {
        uint64_t number = list_elements(HUB_IN_STORE, b->package.at, b->package.length, &b->all, report);
        if (number != HUB_DONE) {
            say_refused(name, "the book is damaged, it is no store and stays as it is", number, report);
            status = BOOK_DAMAGED;
        }
    }
    return status == ENDED_WELL ? open_knowledge(b) : status;
}

/* ---- what came */

static int same(const uint8_t *a, size_t a_length, const uint8_t *b, size_t b_length) {
    return a_length == b_length && memcmp(a, b, a_length) == 0;
}

const struct element *book_find(const struct book *b, const uint8_t *bytes, const struct element *e) {
    for (size_t i = 0; i < b->all.count; i++) {
        const struct element *mine = &b->all.row[i];
        if (same(b->package.at + mine->id, mine->id_length, bytes + e->id, e->id_length)) {
            return mine;
        }
    }
    return NULL;
}

int book_has(const struct book *b, const uint8_t *bytes, const struct element *e) {
    const struct element *mine = book_find(b, bytes, e);
    return mine != NULL && memcmp(serial_of(b->package.at, mine), serial_of(bytes, e), SERIAL_SIZE) == 0;
}

int book_has_same(const struct book *b, const uint8_t *bytes, const struct element *e) {
    const struct element *mine = book_find(b, bytes, e);
    return mine != NULL && same(b->package.at + mine->place, mine->length, bytes + e->place, e->length);
}

/* The first element of an answer for which the book has no more room, once those before it are in. */
static int say_full(const struct book *b, const uint8_t *answer, const struct elements *page) {
    size_t count = b->all.count, length = b->package.length;
    for (size_t i = 0; i < page->count; i++) {
        const struct element *came = &page->row[i], *mine = book_find(b, answer, came);
        if (mine != NULL) {
            count--;
            length -= mine->length;
        }
        if (count == MOST_ELEMENTS || came->length > HUB_LONGEST_INPUT - length) {
            fprintf(stderr, "player: %s: the book is full: it has %zu elements in %zu bytes, and one of %zu bytes came\n", b->name, count,
                    length, came->length);
            return FULL;
        }
        count++;
        length += came->length;
    }
    fprintf(stderr, "player: %s: the book is full: it has %zu elements in %zu bytes\n", b->name, count, length);
    return FULL;
}

/* The answer does not go into the book. It is full if that falls on no item: 9 or 1 with input 0 and place 0. */
static int not_kept(const struct book *b, const uint8_t *answer, const struct elements *page, uint64_t number, const uint8_t *report) {
    int on_none = hub_report_number(report, HUB_AT_INPUT) == 0 && hub_report_number(report, HUB_AT_PLACE) == 0;
    if (on_none && (number == HUB_TOO_MANY || number == HUB_INPUT_TOO_LONG)) {
        return say_full(b, answer, page);
    }
    fprintf(stderr, "player: %s: hub_keep refuses: %llu, input %llu, place %llu (%s)\n", b->name, (unsigned long long)number,
            told(report, HUB_AT_INPUT), told(report, HUB_AT_PLACE), hub_refusal_text(number));
    return REFUSED;
}

/* The room of both together always suffices, and so does that of the longest book. */
int book_keep(struct book *b, const struct bytes *answer, const struct elements *page, uint64_t *taken) {
    uint8_t report[HUB_REPORT_BYTES] = {0};
    struct bytes kept = {NULL, 0, 0};
    size_t room = b->package.length + answer->length;
    bytes_lend(&kept, room < HUB_LONGEST_INPUT ? room : HUB_LONGEST_INPUT);
    uint64_t number = hub_keep(b->package.at, b->package.length, answer->at, answer->length, kept.at, kept.room, report,
                               sizeof report);
    if (number != HUB_DONE) {
        bytes_free(&kept);
        return not_kept(b, answer->at, page, number, report);
    }
    kept.length = told_size(report, HUB_AT_LENGTH);
    for (size_t i = 0; i < page->count; i++) {
        *taken += (uint64_t)!book_has_same(b, answer->at, &page->row[i]);
    }
    bytes_free(&b->package);
    b->package = kept;
    number = list_elements(HUB_IN_STORE, kept.at, kept.length, &b->all, report);
    if (number != HUB_DONE) {
        say_refused(b->name, "the new book would be no store; it is not written", number, report);
    }
    return number == HUB_DONE ? ENDED_WELL : REFUSED;
}

/* ---- saving */

/* Both aside first, then the names: the book's before the knowledge's, as a knowledge that is ahead of its book loses what came. */
static int save_pair(const struct book *b, const char *knowledge_name, const struct bytes *sealed) {
    int status = file_write_aside(b->name, &b->package);
    if (status != ENDED_WELL) {
        return status;
    }
    status = file_write_aside(knowledge_name, sealed);
    if (status != ENDED_WELL) {
        file_drop_aside(b->name);
        return status;
    }
    status = file_put_in_place(b->name);
    if (status != ENDED_WELL) {
        file_drop_aside(knowledge_name);
        return status;
    }
    return file_put_in_place(knowledge_name);
}

int book_save(struct book *b, const struct bytes *knowledge) {
    char line[SEAL_ROOM];
    struct bytes sealed = {NULL, 0, 0};
    bytes_add(&sealed, line, seal(line, &b->package, knowledge));
    bytes_add(&sealed, knowledge->at, knowledge->length);
    char *name = name_with(b->name, ".knowledge");
    int status = save_pair(b, name, &sealed);
    if (status == ENDED_WELL) {
        b->there = 1;
        b->passed_over = 0;
        b->knowledge.length = 0;
        bytes_add(&b->knowledge, knowledge->at, knowledge->length);
    }
    free(name);
    bytes_free(&sealed);
    return status;
}

void book_free(struct book *b) {
    bytes_free(&b->package);
    bytes_free(&b->knowledge);
}
