/* Damaged requests (hostile.h). They are those of a whole talk about the store, so that they have knowledges of all lengths. */
#include "hostile.h"
#include "../include/hub.h"
#include "exchange.h"
#include "guarded.h"
#include "report.h"
#include "status.h"
#include "talk.h"

#include <stdio.h>
#include <stdlib.h>
#include <string.h>

#define NUMBERS 15u /* 0 to 14 */

struct attack {
    struct bytes store, filters;
    struct elements all;
    struct bytes requests[MOST_ELEMENTS + 1]; /* the good ones */
    size_t count;
    uint64_t random; /* the generator's state, never 0 */
    uint64_t seen[NUMBERS];
};

/* A small generator (xorshift64*); the same seed gives the same requests everywhere. */
static uint64_t next(struct attack *a) {
    a->random ^= a->random >> 12;
    a->random ^= a->random << 25;
    a->random ^= a->random >> 27;
    return a->random * 0x2545F4914F6CDD1Du;
}

static size_t below(struct attack *a, size_t n) {
    return (size_t)((next(a) >> 16) % n);
}

/* Holds a talk without a book and keeps each request. */
static int keep_requests(struct attack *a, const struct options *o) {
    struct exchange x;
    int status = ENDED_WELL, partial = 1;
    memset(&x, 0, sizeof x);
    x.store = &a->store;
    x.filters = &a->filters;
    x.limit = o->limit;
    x.quiet = 1;
    bytes_lend(&x.request, o->ask_bytes);
    x.offered = o->answer_bytes;
    while (status == ENDED_WELL && partial && a->count <= a->all.count) {
        status = exchange_once(&x);
        if (status == ENDED_WELL) {
            bytes_add(&a->requests[a->count], x.request.at, x.request.length);
            a->count++;
            partial = hub_report_number(x.report, HUB_AT_PARTIAL) == 1;
        }
    }
    exchange_free(&x);
    return status;
}

/* Changes one to four bytes, and one time in eight cuts the request or adds a byte. Says what it does, if asked to. */
static void damage(struct attack *a, struct bytes *r, int quiet) {
    size_t changes = 1 + below(a, 4), way = below(a, 16);
    for (size_t i = 0; i < changes; i++) {
        size_t place = below(a, r->length);
        r->at[place] ^= (uint8_t)(1 + below(a, 255));
        if (!quiet) {
            printf("%s%zu", i == 0 ? " changed at " : ", ", place);
        }
    }
    if (way == 0) {
        r->length = below(a, r->length);
    } else if (way == 1) {
        uint8_t more = (uint8_t)next(a);
        bytes_add(r, &more, 1);
    }
    if (!quiet) {
        printf("%s: ", way == 0 ? " and cut" : way == 1 ? " and lengthened" : "");
    }
}

static void say_result(const struct guarded *g) {
    if (g->number == HUB_DONE) {
        printf("answered, %llu bytes\n", (unsigned long long)g->length);
    } else if (g->number == HUB_OUTPUT_TOO_SHORT) {
        printf("refused 14, %llu bytes needed\n", (unsigned long long)g->length);
    } else {
        printf("refused %llu, input %llu, place %llu (%s)\n", (unsigned long long)g->number, (unsigned long long)g->input,
               (unsigned long long)g->place, hub_refusal_text(g->number));
    }
}

static int one_damaged(struct attack *a, const struct options *o, uint64_t turn) {
    size_t which = below(a, a->count);
    struct bytes r = {NULL, 0, 0};
    bytes_add(&r, a->requests[which].at, a->requests[which].length);
    if (!o->quiet) {
        printf("%llu: request %zu of %zu bytes,", (unsigned long long)turn, which + 1, r.length);
    }
    damage(a, &r, o->quiet);
    struct guarded g = guarded_write(&a->store, &r, o->answer_bytes);
    if (!o->quiet) {
        say_result(&g);
    }
    if (g.broken != NULL) {
        fflush(stdout);
        fprintf(stderr, "player: damaged request %llu: a promise is broken: %s; it was ", (unsigned long long)turn, g.broken);
        for (size_t i = 0; i < r.length; i++) {
            fprintf(stderr, "%02x", r.at[i]);
        }
        fprintf(stderr, "\n");
    } else {
        a->seen[g.number]++;
    }
    bytes_free(&g.answer);
    bytes_free(&r);
    return g.broken == NULL ? ENDED_WELL : PROMISE_BROKEN;
}

static void say_end(const struct attack *a, const struct options *o, uint64_t turns) {
    printf("hostile %llu: damaged requests %llu of %zu good ones, answered %llu, refused", (unsigned long long)o->seed,
           (unsigned long long)turns, a->count, (unsigned long long)a->seen[0]);
    for (size_t i = 1; i < NUMBERS; i++) {
        if (a->seen[i] > 0) {
            printf(" %zu:%llu", i, (unsigned long long)a->seen[i]);
        }
    }
    printf("; no promise seen broken\n");
}

int hostile(const struct options *o) {
    struct attack *a = memory(sizeof *a);
    memset(a, 0, sizeof *a);
    a->random = o->seed * 2 + 1;
    for (int i = 0; i < 8; i++) {
        next(a); /* the first numbers of like seeds are alike */
    }
    int status = store_read(o->store, &a->store, &a->all);
    if (status == ENDED_WELL) {
        status = filters_read(o->filters, &a->filters);
    }
    if (status == ENDED_WELL) {
        status = keep_requests(a, o);
    }
    uint64_t turns = 0;
    while (status == ENDED_WELL && turns < o->times) {
        turns++;
        status = one_damaged(a, o, turns);
    }
    if (status == ENDED_WELL) {
        say_end(a, o, turns);
    }
    for (size_t i = 0; i < a->count; i++) {
        bytes_free(&a->requests[i]);
    }
    bytes_free(&a->store);
    bytes_free(&a->filters);
    free(a);
    return status;
}
