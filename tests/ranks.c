/* The order of an answer (document 02, Q-14): the storage index first, then the manifests, then all others, and within a rank as
   the store has them. Each store is asked about without a limit, with outputs around the length of each of its pages, under limits
   around each page's bytes, under filters that leave in some types alone, and in a talk to its end by pages of one. What is awaited
   are whole answers, worked out in ranked.h by five passes over the store. What stays with the store's own order is looked at
   beside it: positions in the store, and the storage index that 0x5F names. The exit status is 1 if a line is not ok. */
#include "../include/hub.h"
#include "build.h"
#include "limits.h"
#include "ranked.h"
#include "told.h"

#include <stdio.h>
#include <stdlib.h>
#include <string.h>

/* ---- one ask */

/* The answer with the first k of the wanted comes into so much output. With k 0 and something wanted, the page of 1 is needed. */
static int page_comes(const struct ranked *s, const struct wanted *w, struct text request, size_t room, unsigned k) {
    int refused = k == 0 && w->count > 0;
    struct text answer = page_of(s, w, refused ? 1 : k);
    struct result needed = {HUB_OUTPUT_TOO_SHORT, 0, 0, answer.length};
    int good = refused ? answer_refused(s->bytes, request, room, needed) : answer_comes(s->bytes, request, room, answer);
    free(answer.at);
    return good;
}

/* A request with these filters, which are given up, this limit and what is known. */
static struct text request_about(const struct ranked *s, const struct wanted *w, struct text filters, uint64_t limit) {
    struct range ranges[MOST];
    struct text request = {0};
    add_request_front(&request, 0);
    add_constraint(&request, limit);
    add_text(&request, &filters);
    add_knowledge(&request, ranges, known_ranges(w->known, s->count, ranges));
    add_request_ends(&request);
    return request;
}

/* ---- outputs and limits around each page */

/* An output of a page's length gets that page, with a byte less the one before it, and with a byte more the same: no page is a
   byte longer than another, as an element has over 46 bytes and a join saves 22 at most. */
static int outputs_around(const struct ranked *s, const struct wanted *w, struct text filters) {
    struct text request = request_about(s, w, filters, NO_LIMIT);
    int good = 1;
    for (unsigned k = w->count == 0 ? 0 : 1; k <= w->count; k++) {
        struct text answer = page_of(s, w, k);
        good = good && page_comes(s, w, request, answer.length, k) && page_comes(s, w, request, answer.length + 1, k);
        if (k > 0) {
            good = good && page_comes(s, w, request, answer.length - 1, k - 1);
        }
        free(answer.at);
    }
    free(request.at);
    return good;
}

/* A limit of a page's stored bytes gets that page, and with a byte less the one before it; a page of 1 has no limit. */
static int limits_around(const struct ranked *s, const struct wanted *w) {
    size_t room = s->bytes.length + HUB_ANSWER_OVER_STORE;
    int good = 1;
    for (unsigned k = 1; k <= w->count; k++) {
        struct text none = {0}, also_none = {0};
        struct text all = request_about(s, w, none, stored_length(s, w, k));
        struct text less = request_about(s, w, also_none, stored_length(s, w, k) - 1);
        good = good && page_comes(s, w, all, room, k) && page_comes(s, w, less, room, k == 1 ? 1 : k - 1);
        free(all.at);
        free(less.at);
    }
    return good;
}

/* ---- a talk to its end */

/* What a bench keeps of an answer: it names the storage index that the store has first, and its elements are the first so many of those
   that are wanted, as stored. */
static int is_read(const struct ranked *s, const struct wanted *w, unsigned awaited, struct text answer, uint8_t *report) {
    unsigned index = first_index(s);
    int good = hub_read(answer.at, answer.length, report, HUB_READ_REPORT_BYTES) == HUB_DONE;
    good = good && hub_report_number(report, HUB_AT_COUNT) == awaited;
    good = good && hub_report_number(report, HUB_AT_NAMED) == (index < s->count);
    good = good && hub_report_number(report, HUB_AT_GUID_NUMBER) == (index < s->count ? FIRST_ID + index : 0);
    for (unsigned i = 0; good && i < awaited; i++) {
        uint8_t found[HUB_REPORT_BYTES] = {0};
        good = hub_element(HUB_IN_ANSWER, answer.at, answer.length, i, found, sizeof found) == HUB_DONE;
        good = good && hub_report_number(found, HUB_AT_LENGTH) == s->length[w->position[i]];
        good = good && memcmp(answer.at + hub_report_number(found, HUB_AT_PLACE), s->bytes.at + s->place[w->position[i]],
                              s->length[w->position[i]]) == 0;
    }
    return good;
}

/* One ask of a talk under limit 0, with the knowledge of the last answer, and the answer to it: one element, if one is wanted. */
static int one_turn(const struct ranked *s, struct wanted *w, struct text *last, uint8_t *report) {
    uint8_t asked[16384], told[HUB_REPORT_BYTES] = {0};
    const uint8_t *known = last->length == 0 ? NULL : last->at + hub_report_number(report, HUB_AT_PLACE);
    size_t known_length = last->length == 0 ? 0 : (size_t)hub_report_number(report, HUB_AT_LENGTH);
    int good = hub_ask(1, 0, NULL, 0, known, known_length, asked, sizeof asked, told, sizeof told) == HUB_DONE;
    struct text request = {asked, (size_t)hub_report_number(told, HUB_AT_LENGTH), sizeof asked};
    struct text answer = page_of(s, w, w->count > 0);
    good = good && answer_comes(s->bytes, request, answer.length, answer) && is_read(s, w, w->count > 0, answer, report);
    if (w->count > 0) {
        w->known[w->position[0]] = 1;
    }
    find_wanted(s, w);
    free(last->at);
    *last = answer;
    return good;
}

/* Pages of one, each asked for with what the last answer told. The first brings the storage index, if the store has one. */
static int talk(const struct ranked *s) {
    struct wanted w;
    struct text last = {0};
    uint8_t report[HUB_READ_REPORT_BYTES] = {0};
    unsigned answers_awaited = s->count == 0 ? 1 : s->count, index = first_index(s);
    want_all(s, &w);
    int good = index == s->count || w.position[0] == index;
    for (unsigned n = 1; good && n <= answers_awaited; n++) {
        good = one_turn(s, &w, &last, report);
        good = good && hub_report_number(report, HUB_AT_PARTIAL) == (n < answers_awaited);
    }
    free(last.at);
    return good && w.count == 0;
}

/* ---- filters */

/* All out, and then these types in. */
static struct text only_types(const uint64_t *types, unsigned count) {
    struct text filters = {0};
    add_filter(&filters, 0);
    for (unsigned i = 0; i < count; i++) {
        add_type_filter(&filters, 1, types[i]);
    }
    return filters;
}

static int filtered(const struct ranked *s, const uint64_t *types, unsigned count) {
    struct wanted w;
    want_all(s, &w);
    memset(w.in, 0, sizeof w.in);
    for (unsigned i = 0; i < s->count; i++) {
        for (unsigned j = 0; j < count; j++) {
            w.in[i] = w.in[i] || s->type[i] == types[j];
        }
    }
    find_wanted(s, &w);
    return outputs_around(s, &w, only_types(types, count));
}

static int every_filter(const struct ranked *s) {
    static const uint64_t types[] = {4, 2, 1, 3, 5, 0};
    int good = filtered(s, types, 0);
    for (unsigned from = 0; from < 6; from++) {
        for (unsigned count = 1; from + count <= 6; count++) {
            good = good && filtered(s, types + from, count);
        }
    }
    return good;
}

/* ---- what the store's own order decides */

static int positions_stay(const struct ranked *s) {
    int good = 1;
    for (unsigned i = 0; i < s->count; i++) {
        struct result found = {HUB_DONE, 0, s->place[i], s->length[i]};
        good = good && finds(HUB_IN_STORE, s->bytes, i, found);
    }
    return good && finds(HUB_IN_STORE, s->bytes, s->count, refusal(HUB_TOO_MANY, 0, 0));
}

/* With every second element known, in the store's order. */
static int half_known(const struct ranked *s) {
    struct wanted w;
    struct text none = {0};
    want_all(s, &w);
    for (unsigned i = 1; i < s->count; i += 2) {
        w.known[i] = 1;
    }
    find_wanted(s, &w);
    return outputs_around(s, &w, none) && limits_around(s, &w);
}

/* ---- the stores */

static int in_order(const struct ranked *s) {
    struct wanted w;
    struct text none = {0}, also_none = {0};
    want_all(s, &w);
    struct text request = request_about(s, &w, none, NO_LIMIT);
    int good = page_comes(s, &w, request, s->bytes.length + HUB_ANSWER_OVER_STORE, w.count);
    free(request.at);
    return good && outputs_around(s, &w, also_none) && limits_around(s, &w);
}

static void try_store(const char *name, const uint64_t *types, unsigned count, int wide) {
    struct ranked *s = ranked_store(types, count, wide);
    char what[160];
    sprintf(what, "%s: without a limit, and outputs and limits around each page", name);
    document_02(what, in_order(s));
    sprintf(what, "%s: the same with every second one known", name);
    document_02(what, half_known(s));
    sprintf(what, "%s: a talk by pages of one, the storage index first", name);
    document_02(what, talk(s));
    sprintf(what, "%s: filters that leave in some types alone", name);
    document_02(what, every_filter(s));
    sprintf(what, "%s: positions in the store stay", name);
    document_02(what, positions_stay(s));
    ranked_free(s);
}

/* 255 elements, and behind them the one that a bench waits for. */
static void index_last(void) {
    uint64_t types[MOST];
    for (unsigned i = 0; i < MOST; i++) {
        types[i] = i + 1 < MOST ? 5 : 1;
    }
    try_store("the storage index last of 256", types, MOST, 0);
}

/* Each of the 1,296 stores of four elements with types 0 to 5. */
static void every_four(void) {
    int good = 1;
    for (unsigned n = 0; n < 6 * 6 * 6 * 6; n++) {
        uint64_t types[4] = {n % 6, n / 6 % 6, n / 36 % 6, n / 216};
        struct ranked *s = ranked_store(types, 4, 0);
        good = good && in_order(s) && half_known(s) && talk(s) && positions_stay(s);
        ranked_free(s);
    }
    document_02("every store of four elements with types 0 to 5", good);
}

int main(void) {
    static const uint64_t rising[] = {0, 1, 2, 3, 4, 5, 6, 7, 8, 9, 10, 11};
    static const uint64_t falling[] = {11, 5, 4, 4, 3, 3, 2, 2, 1, 1};
    static const uint64_t mixed[] = {3, 5, 1, 4, 2, 2, 0, 4, 3, 1};
    /* Numbers of which a few bits are a 1, 2, 3 or 4. */
    static const uint64_t large[] = {0x101, 0x10002, 0x100000003, UINT64_MAX, 0x8000000000000001, 4, 0x8000000000000004, 1};
    try_store("all types from 0 to 11", rising, sizeof rising / sizeof *rising, 0);
    try_store("ranks that fall all the way", falling, sizeof falling / sizeof *falling, 0);
    try_store("two of each rank, mixed", mixed, sizeof mixed / sizeof *mixed, 0);
    try_store("types in 9 bytes", mixed, sizeof mixed / sizeof *mixed, 1);
    try_store("large types", large, sizeof large / sizeof *large, 0);
    try_store("no element", rising, 0, 0);
    index_last();
    every_four();
    return ended();
}
