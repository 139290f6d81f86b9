/* A whole talk (talk.h). */
#include "talk.h"
#include "../include/hub.h"
#include "files.h"
#include "report.h"
#include "status.h"

#include <stdio.h>
#include <stdlib.h>
#include <string.h>

/* ---- what is read before */

int store_read(const char *name, struct bytes *store, struct elements *all) {
    uint8_t report[HUB_REPORT_BYTES] = {0};
    int status = file_read(name, HUB_LONGEST_INPUT, store);
    if (status == ENDED_WELL) {
        uint64_t number = list_elements(HUB_IN_STORE, store->at, store->length, all, report);
        if (number != HUB_DONE) {
            say_refused(name, "it is no store", number, report);
            status = WRONG_CONTENT;
        }
    }
    return status;
}

int filters_read(const char *name, struct bytes *filters) {
    struct bytes text = {NULL, 0, 0};
    int status = name == NULL ? ENDED_WELL : file_read(name, HUB_LONGEST_INPUT, &text);
    if (status == ENDED_WELL && !bytes_spelled(filters, (const char *)text.at, text.length)) {
        fprintf(stderr, "player: %s: it spells no bytes in hex\n", name);
        status = WRONG_CONTENT;
    }
    bytes_free(&text);
    return status;
}

/* ---- the talk */

/* How many elements of the store the book lacks. */
static size_t wanted_left(const struct course *c) {
    size_t n = 0;
    for (size_t i = 0; i < c->all.count; i++) {
        n += !book_has(&c->book, c->store.at, &c->all.row[i]);
    }
    return n;
}

/* Keeps the last answer in the book, and counts the bytes of its elements. */
static int take_page(struct course *c, uint64_t *page_bytes, uint64_t *taken) {
    uint8_t report[HUB_REPORT_BYTES] = {0};
    const struct bytes *answer = &c->x.answer;
    uint64_t number = list_elements(HUB_IN_ANSWER, answer->at, answer->length, &c->page, report);
    if (number != HUB_DONE || c->page.count != hub_report_number(c->x.report, HUB_AT_COUNT)) {
        fprintf(stderr, "player: the elements of answer %llu are not those that it tells of\n", (unsigned long long)c->answers);
        return REFUSED;
    }
    for (size_t i = 0; i < c->page.count; i++) {
        *page_bytes += c->page.row[i].length;
    }
    return book_keep(&c->book, answer, &c->page, taken);
}

/* Saves the book if it or its knowledge is another than the files have. */
static int save_if_new(struct course *c, uint64_t taken) {
    const struct bytes *now = &c->x.knowledge, *then = &c->book.knowledge;
    int known = now->length == then->length && memcmp(now->at, then->at, now->length) == 0;
    if (taken == 0 && known && c->book.there) {
        return ENDED_WELL;
    }
    return book_save(&c->book, now);
}

/* Whether the last answer brings the storage index that it names. It tells which parts of the book belong together, so a bench has
   nothing to show before; the hub sends it first, in the first answer of a talk in which it is wanted. */
static int index_came(const struct course *c) {
    const uint8_t *report = c->x.report;
    for (size_t i = 0; hub_report_number(report, HUB_AT_NAMED) == 1 && i < c->page.count; i++) {
        struct exguid id = read_exguid(c->x.answer.at + c->page.row[i].id);
        if (id.number == hub_report_number(report, HUB_AT_GUID_NUMBER) && memcmp(id.guid, report + HUB_AT_GUID_LOW, 16) == 0) {
            return 1;
        }
    }
    return 0;
}

static void say_index(const struct course *c) {
    printf("answer %llu: storage index %llu of ", (unsigned long long)c->answers, told(c->x.report, HUB_AT_GUID_NUMBER));
    say_hex(c->x.report + HUB_AT_GUID_LOW, 16);
    printf(" has come\n");
}

/* Where elements share a serial number it is told how many groups there are: those that come whole, and that a talk is counted by. */
static void say_groups(const char *where, size_t groups, size_t elements) {
    if (groups < elements) {
        printf("%s groups %zu, as elements share serial numbers\n", where, groups);
    }
}

static void say_answer(const struct course *c, uint64_t page_bytes) {
    char where[32];
    printf("answer %llu: %zu bytes, page %zu of %llu bytes, wanted left %zu, ranges %zu, %s\n", (unsigned long long)c->answers,
           c->x.answer.length, c->page.count, (unsigned long long)page_bytes, wanted_left(c),
           count_objects(c->x.knowledge.at, c->x.knowledge.length, RANGE), c->partial ? "partial" : "the last");
    snprintf(where, sizeof where, "answer %llu:", (unsigned long long)c->answers);
    say_groups(where, count_groups(c->x.answer.at, &c->page), c->page.count);
    if (index_came(c)) {
        say_index(c);
    }
    fflush(stdout);
}

int talk_ask(struct course *c) {
    uint64_t page_bytes = 0, taken = 0;
    int status = exchange_once(&c->x);
    if (status == ENDED_WELL) {
        c->answers++;
        c->partial = hub_report_number(c->x.report, HUB_AT_PARTIAL) == 1;
        status = take_page(c, &page_bytes, &taken);
    }
    if (status == ENDED_WELL) {
        status = save_if_new(c, taken);
    }
    if (status == ENDED_WELL) {
        c->came += c->page.count;
        c->came_bytes += page_bytes;
        c->taken += taken;
        if (!c->quiet) {
            say_answer(c, page_bytes);
        }
    }
    return status;
}

static void say_end(const struct course *c) {
    printf("%s: answers %llu, refused for room %llu, elements %llu of %llu bytes, new %llu; book: elements %zu, bytes %zu, "
           "ranges %zu; wanted left %zu\n",
           c->partial ? "stopped" : "done", (unsigned long long)c->answers, (unsigned long long)c->x.too_short,
           (unsigned long long)c->came, (unsigned long long)c->came_bytes, (unsigned long long)c->taken, c->book.all.count,
           c->book.package.length, count_objects(c->x.knowledge.at, c->x.knowledge.length, RANGE), wanted_left(c));
}

/* Asks until an answer is unmarked. That comes at the n-th answer or sooner if n groups were wanted, at the first if none
   was, which is proved. No more asks than the store has groups, and one, is held to here besides, as the daemon of a bench
   should do with a hub that it does not know. */
int talk_to_end(struct course *c, uint64_t stop_after) {
    int status = ENDED_WELL;
    size_t groups = count_groups(c->store.at, &c->all);
    c->partial = 1;
    while (status == ENDED_WELL && c->partial && c->answers < stop_after) {
        if (c->answers - c->before > groups) {
            fprintf(stderr, "player: %llu answers came about %zu groups of elements, and the last is still marked partial\n",
                    (unsigned long long)(c->answers - c->before), groups);
            return BOUND_PASSED;
        }
        status = talk_ask(c);
    }
    if (status == ENDED_WELL) {
        say_end(c);
    }
    return status;
}

static void say_begin(const struct course *c, const struct options *o) {
    printf("store %s: elements %zu, bytes %zu; book %s: elements %zu, bytes %zu%s\n", o->store, c->all.count, c->store.length,
           o->book, c->book.all.count, c->book.package.length, c->book.there ? "" : ", new");
    say_groups("store:", count_groups(c->store.at, &c->all), c->all.count);
    if (c->book.passed_over) {
        printf("the knowledge beside the book was not saved with this book and is passed over: everything comes again\n");
    }
}

int talk_begin(struct course *c, const struct options *o) {
    c->quiet = o->quiet;
    int status = store_read(o->store, &c->store, &c->all);
    if (status == ENDED_WELL) {
        status = filters_read(o->filters, &c->filters);
    }
    if (status == ENDED_WELL) {
        status = book_open(&c->book, o->book);
    }
    if (status == ENDED_WELL) {
        if (!o->quiet) {
            say_begin(c, o);
        }
        c->x.store = &c->store;
        c->x.filters = &c->filters;
        c->x.limit = o->limit;
        c->x.quiet = o->quiet;
        bytes_lend(&c->x.request, o->ask_bytes);
        c->x.offered = o->answer_bytes;
        bytes_add(&c->x.knowledge, c->book.knowledge.at, c->book.knowledge.length);
    }
    return status;
}

void talk_free(struct course *c) {
    exchange_free(&c->x);
    book_free(&c->book);
    bytes_free(&c->store);
    bytes_free(&c->filters);
}

int talk(const struct options *o) {
    struct course *c = memory(sizeof *c);
    memset(c, 0, sizeof *c);
    int status = talk_begin(c, o);
    if (status == ENDED_WELL) {
        status = talk_to_end(c, o->stop_after);
    }
    talk_free(c);
    free(c);
    return status;
}
