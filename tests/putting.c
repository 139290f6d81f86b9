/* A filter for tests of the calls for puts exported to C: each line of the input is one case of crates/cases/README.md, `put`,
   `ask_put` or `read_put`, and gives the line of output that is written there; NUMBER may have 64 bits. Each call is made twice,
   with a report of the length that is the first argument, 32 if there is none, and with one that has room for all that is told,
   from which the line is made. The second argument is what stands for NAMED where it is 1, 1 if there is none. Instead of the
   line come:
   - `touched` if a byte was changed that the call may not change, or the two calls differ in what they return, write or tell;
   - `another input` if there is no refusal and the report does not begin with 0, after a put with 0 and 0;
   - `bad` if the line is no case.
   Lines 1 to 26 of putting.in have numbers of 32 bits and of more, which are 3 before all else, and do not count where no index is
   named. Then come cases made at random, many of them damaged, with each refusal that they can get, but for 1 and 9: to line 222
   puts that are applied, to 348 puts that are written, to the end answers to puts. */
#include "../include/hub.h"
#include "lent.h"
#include "lines.h"

#include <stdio.h>
#include <stdlib.h>
#include <string.h>

static size_t report_length = HUB_PUT_REPORT_BYTES;
static uint64_t named_by = 1;

enum kind { PUT, ASK_PUT, READ_PUT };

/* The kinds by their words: how many there are, and which of them spell inputs and a GUID; 0 for none. */
static const struct form {
    const char *name;
    size_t words, first, second, guid;
} forms[] = {{"put", 6, 1, 2, 3}, {"ask_put", 7, 5, 0, 3}, {"read_put", 2, 1, 0, 0}};

/* What a case hands to its call. */
struct given {
    enum kind kind;
    struct bytes first, second, guid;
    uint64_t id, named, number;
    size_t new_store_room, room;
};

/* What a call may write to. */
struct buffers {
    struct lent new_store, out, report;
};

static struct buffers lend_all(const struct given *g, size_t length) {
    struct buffers b = {lend(g->new_store_room), lend(g->room), lend(length)};
    return b;
}

static void give_all_back(struct buffers b) {
    give_back(b.new_store);
    give_back(b.out);
    give_back(b.report);
}

static uint64_t call(const struct given *g, struct buffers b) {
    uint8_t *out = front_of(b.out), *report = front_of(b.report);
    switch (g->kind) {
    case PUT:
        return hub_put(g->first.at, g->first.length, g->second.at, g->second.length, number_in(g->guid.at),
                       number_in(g->guid.at + 8), front_of(b.new_store), b.new_store.length, out, b.out.length, report,
                       b.report.length);
    case ASK_PUT:
        return hub_ask_put(g->id, g->named, number_in(g->guid.at), number_in(g->guid.at + 8), g->number, g->first.at,
                           g->first.length, out, b.out.length, report, b.report.length);
    default:
        return hub_read_put(g->first.at, g->first.length, report, b.report.length);
    }
}

/* How many bytes of its report a call tells. */
static size_t told(enum kind kind, uint64_t number, struct lent report) {
    if (number == 0 && kind != ASK_PUT && report.length >= HUB_PUT_REPORT_BYTES) {
        return HUB_PUT_REPORT_BYTES;
    }
    return report.length >= HUB_REPORT_BYTES ? HUB_REPORT_BYTES : 0;
}

/* Whether two buffers of one length, with what stands around them, hold the same. */
static int same(struct lent a, struct lent b) {
    return memcmp(a.all, b.all, a.length + 2 * AROUND) == 0;
}

/* Whether a call did the same as one whose report has room for all, and told as much of it as its own has. */
static int agrees(enum kind kind, uint64_t number, struct buffers b, struct buffers whole) {
    size_t n = told(kind, number, b.report);
    return same(b.new_store, whole.new_store) && same(b.out, whole.out) && kept_behind(b.report, n) &&
           memcmp(b.report.all, whole.report.all, AROUND + n) == 0;
}

/* Whether a call whose report tells all left alone what it says that it did not write. */
static int kept(enum kind kind, uint64_t number, struct buffers b) {
    const uint8_t *report = front_of(b.report);
    uint64_t written = number == 0 && kind != READ_PUT ? number_in(report + HUB_AT_LENGTH) : 0;
    uint64_t stored = number == 0 && kind == PUT ? number_in(report + HUB_AT_STORE_LENGTH) : 0;
    return kept_behind(b.out, (size_t)written) && kept_behind(b.new_store, (size_t)stored) &&
           kept_behind(b.report, told(kind, number, b.report));
}

/* A result without a refusal. */
static void say_done(enum kind kind, struct buffers b) {
    const uint8_t *report = front_of(b.report);
    if (number_in(report + HUB_AT_INPUT) != 0 || (kind != READ_PUT && number_in(report + HUB_AT_PLACE) != 0)) {
        printf("another input\n");
        return;
    }
    printf("ok");
    if (kind == READ_PUT) {
        say_number(number_in(report + HUB_AT_ID));
        say_number(number_in(report + HUB_AT_PLACE));
        say_number(number_in(report + HUB_AT_LENGTH));
    } else {
        printf(" ");
        say_hex(front_of(b.out), (size_t)number_in(report + HUB_AT_LENGTH));
    }
    if (kind == PUT) {
        printf(" ");
        say_hex(front_of(b.new_store), (size_t)number_in(report + HUB_AT_STORE_LENGTH));
    }
    printf("\n");
}

static void both_calls(const struct given *g) {
    struct buffers b = lend_all(g, report_length), whole = lend_all(g, HUB_PUT_REPORT_BYTES);
    uint64_t number = call(g, whole);
    if (call(g, b) != number || !kept(g->kind, number, whole) || !agrees(g->kind, number, b, whole)) {
        printf("touched\n");
    } else if (number != 0) {
        say_refusal(number, front_of(whole.report));
    } else {
        say_done(g->kind, whole);
    }
    give_all_back(b);
    give_all_back(whole);
}

/* The kind with this name and so many words; as many as there are kinds if there is none. */
static size_t kind_of(char **words, size_t n) {
    size_t i;
    for (i = 0; i < sizeof forms / sizeof *forms; i++) {
        if (n == forms[i].words && strcmp(words[0], forms[i].name) == 0) {
            break;
        }
    }
    return i;
}

static uint64_t number_of(const char *word) {
    return strtoull(word, NULL, 10);
}

/* What the words of a case spell. */
static struct given taken(char **words, enum kind kind) {
    const struct form *f = &forms[kind];
    struct given g = {kind, spelled(words[f->first]), spelled(f->second > 0 ? words[f->second] : "-"),
                      spelled(f->guid > 0 ? words[f->guid] : "-"), 0, 0, 0, 0, 0};
    if (kind == ASK_PUT) {
        g.id = number_of(words[1]);
        g.named = number_of(words[2]) * named_by;
        g.number = number_of(words[4]);
    }
    if (kind == PUT) {
        g.new_store_room = (size_t)number_of(words[4]);
    }
    if (kind != READ_PUT) {
        g.room = (size_t)number_of(words[f->words - 1]);
    }
    return g;
}

/* Runs the case of these words, if it is one. */
static int run_case(char **words, size_t n) {
    size_t kind = kind_of(words, n);
    if (kind == sizeof forms / sizeof *forms) {
        return 0;
    }
    struct given g = taken(words, (enum kind)kind);
    int good = g.first.good && g.second.good && g.guid.good && (forms[kind].guid == 0 || g.guid.length == 16);
    if (good) {
        both_calls(&g);
    }
    free(g.first.at);
    free(g.second.at);
    free(g.guid.at);
    return good;
}

int main(int count, char **arguments) {
    char *line, *words[8];
    if (count > 1) {
        report_length = (size_t)number_of(arguments[1]);
    }
    if (count > 2) {
        named_by = number_of(arguments[2]);
    }
    while ((line = next_line()) != NULL) {
        if (!run_case(words, words_of(line, words, 8))) {
            printf("bad\n");
        }
        free(line);
    }
    return 0;
}
