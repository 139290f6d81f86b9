/* Groups (document 02, Q-3): elements that share a serial number go out together, whole, at the place of the first, and count as one
   in a page. Stores with groups of 2 to 256 members are asked about without a limit, under limits around the summed length of each
   page's groups, with outputs around each page's length, under filters that leave in one member or leave out one, knowing one serial
   number alone or all but one, and in talks to their end. What is awaited are whole answers, worked out in grouped.h. What else there
   is to them stands in shared_serials.c. The exit status is 1 if a line is not ok. */
#include "../include/hub.h"
#include "build.h"
#include "grouped.h"
#include "limits.h"
#include "ranked.h"
#include "told.h"

#include <stdio.h>
#include <stdlib.h>
#include <string.h>

/* ---- outputs and limits around each page */

/* The answer with the first k groups comes into so much output. With k 0 and a group wanted, the first one is needed, whole. */
static int page_comes(const struct ranked *s, const struct groups *g, struct text request, size_t room, unsigned k) {
    int refused = k == 0 && g->count > 0;
    struct text answer = page_of_groups(s, g, refused ? 1 : k);
    struct result needed = {HUB_OUTPUT_TOO_SHORT, 0, 0, answer.length};
    int good = refused ? answer_refused(s->bytes, request, room, needed) : answer_comes(s->bytes, request, room, answer);
    free(answer.at);
    return good;
}

/* An output of a page's length, or of a byte more, gets that page, and with a byte less the one before it. */
static int outputs_around(const struct ranked *s, const struct groups *g, struct text filters) {
    struct text request = request_for_groups(g, filters, NO_LIMIT);
    int good = g->count == 0 || page_comes(s, g, request, 0, 0);
    for (unsigned k = g->count == 0 ? 0 : 1; good && k <= g->count; k++) {
        struct text answer = page_of_groups(s, g, k);
        good = page_comes(s, g, request, answer.length, k) && page_comes(s, g, request, answer.length + 1, k);
        good = good && (k == 0 || page_comes(s, g, request, answer.length - 1, k - 1));
        free(answer.at);
    }
    free(request.at);
    return good;
}

/* What suffices for the elements of a store, a range for each and two more. */
static size_t ample(const struct ranked *s) {
    return s->bytes.length + 128 + 40 * (s->count + 2);
}

/* Whether this limit gets the first k groups. */
static int limit_gets(const struct ranked *s, const struct groups *g, struct text filters, uint64_t limit, unsigned k) {
    struct text own = exact(filters), request = request_for_groups(g, own, limit);
    int good = page_comes(s, g, request, ample(s), k);
    free(request.at);
    return good;
}

/* A limit of what a page's groups have together, or a byte more, gets that page, and with a byte less the one before it; the first
   group has no limit. The filters stay the caller's. */
static int limits_around(const struct ranked *s, const struct groups *g, struct text filters) {
    int good = limit_gets(s, g, filters, 0, g->count > 0);
    for (unsigned k = 1; good && k <= g->count; k++) {
        uint64_t sum = length_of_groups(s, g, k);
        good = limit_gets(s, g, filters, sum, k) && limit_gets(s, g, filters, sum + 1, k);
        good = good && limit_gets(s, g, filters, sum - 1, k == 1 ? 1 : k - 1);
    }
    return good;
}

/* Both, with filters that are given up. */
static int around(const struct ranked *s, struct groups *g, struct text filters) {
    find_groups(s, g);
    int good = limits_around(s, g, filters);
    return outputs_around(s, g, filters) && good;
}

static int in_order(const struct ranked *s) {
    struct groups g;
    struct text none = {0};
    want_all_groups(s, &g);
    return around(s, &g, none);
}

/* ---- filters and knowledge */

/* All are put out and then this one in, or the other way. */
static int one_filtered(const struct ranked *s, unsigned position, unsigned in) {
    struct groups g;
    struct text filters = {0};
    want_all_groups(s, &g);
    add_filter(&filters, !in);
    add_position_filter(&filters, in, position);
    memset(g.in, !in, sizeof g.in);
    g.in[position] = (uint8_t)in;
    return around(s, &g, filters);
}

/* Whichever member it is, the first in row order, the last or one between. */
static int every_one_filtered(const struct ranked *s, unsigned step) {
    int good = 1;
    for (unsigned i = 0; good && i < s->count; i += step) {
        good = one_filtered(s, i, 1) && one_filtered(s, i, 0);
    }
    return good;
}

/* All are put out, and then those of one type in. */
static int every_type_filtered(const struct ranked *s) {
    int good = 1;
    for (uint64_t type = 0; good && type < 12; type++) {
        struct groups g;
        struct text filters = {0};
        want_all_groups(s, &g);
        add_filter(&filters, 0);
        add_type_filter(&filters, 1, type);
        for (unsigned i = 0; i < s->count; i++) {
            g.in[i] = s->type[i] == type;
        }
        good = around(s, &g, filters);
    }
    return good;
}

/* One serial number known and no other, and all but one. */
static int every_one_known(const struct ranked *s, unsigned step) {
    int good = 1;
    for (unsigned i = 0; good && i < s->count; i += step) {
        struct groups g;
        struct text none = {0}, also_none = {0};
        want_all_groups(s, &g);
        g.known[s->serial[i]] = 1;
        good = around(s, &g, none);
        memset(g.known, 1, sizeof g.known);
        g.known[s->serial[i]] = 0;
        good = good && around(s, &g, also_none);
    }
    return good;
}

/* ---- a talk to its end */

/* The greatest page that limit and output allow, or the first group. */
static unsigned awaited_page(const struct ranked *s, const struct groups *g, uint64_t limit, size_t room) {
    unsigned k = g->count > 0, fits = 1;
    while (fits && k < g->count) {
        struct text next = page_of_groups(s, g, k + 1);
        fits = length_of_groups(s, g, k + 1) <= limit && next.length <= room;
        k += fits;
        free(next.at);
    }
    return k;
}

/* What a bench reads in an answer: the storage index that the store has first, and the members of the first k groups, as stored and in
   turn. How often each has come is counted. */
static int is_read(const struct ranked *s, const struct groups *g, unsigned k, struct text answer, uint8_t *report, unsigned *came) {
    unsigned index = first_index(s), n = g->ends[k];
    int good = hub_read(answer.at, answer.length, report, HUB_READ_REPORT_BYTES) == HUB_DONE;
    good = good && hub_report_number(report, HUB_AT_COUNT) == n && hub_report_number(report, HUB_AT_PARTIAL) == (k < g->count);
    good = good && hub_report_number(report, HUB_AT_NAMED) == (index < s->count);
    good = good && hub_report_number(report, HUB_AT_GUID_NUMBER) == (index < s->count ? FIRST_ID + index : 0);
    for (unsigned i = 0; good && i < n; i++) {
        uint8_t found[HUB_REPORT_BYTES] = {0};
        unsigned position = g->position[i];
        good = hub_element(HUB_IN_ANSWER, answer.at, answer.length, i, found, sizeof found) == HUB_DONE;
        good = good && hub_report_number(found, HUB_AT_LENGTH) == s->length[position];
        good = good && memcmp(answer.at + hub_report_number(found, HUB_AT_PLACE), s->bytes.at + s->place[position],
                              s->length[position]) == 0;
        came[position]++;
    }
    return good;
}

/* One ask of a talk, with the knowledge of the last answer, and the answer to it. The first group is lent what it needs. */
static int one_turn(const struct ranked *s, struct groups *g, uint64_t limit, size_t room, struct text *last, uint8_t *report,
                    unsigned *came) {
    uint8_t asked[16384], told[HUB_REPORT_BYTES] = {0};
    const uint8_t *known = last->length == 0 ? NULL : last->at + hub_report_number(report, HUB_AT_PLACE);
    size_t known_length = last->length == 0 ? 0 : (size_t)hub_report_number(report, HUB_AT_LENGTH);
    int good = hub_ask(1, limit, NULL, 0, known, known_length, asked, sizeof asked, told, sizeof told) == HUB_DONE;
    struct text request = {asked, (size_t)hub_report_number(told, HUB_AT_LENGTH), sizeof asked};
    unsigned k = awaited_page(s, g, limit, room);
    struct text answer = page_of_groups(s, g, k);
    good = good && answer_comes(s->bytes, request, answer.length > room ? answer.length : room, answer);
    good = good && is_read(s, g, k, answer, report, came);
    for (unsigned i = 0; i < g->ends[k]; i++) {
        g->known[s->serial[g->position[i]]] = 1;
    }
    find_groups(s, g);
    free(last->at);
    *last = answer;
    return good;
}

/* Every element comes, once, the second member of a group too; with n groups by the n-th answer. */
static int talk(const struct ranked *s, uint64_t limit, size_t room) {
    struct groups g;
    struct text last = {0};
    uint8_t report[HUB_READ_REPORT_BYTES] = {0};
    unsigned came[MOST] = {0}, partial = 1, answers = 0;
    want_all_groups(s, &g);
    unsigned most = g.count == 0 ? 1 : g.count;
    int good = 1;
    while (good && partial && answers < most) {
        good = one_turn(s, &g, limit, room, &last, report, came);
        partial = hub_report_number(report, HUB_AT_PARTIAL) == 1;
        answers++;
    }
    for (unsigned i = 0; i < s->count; i++) {
        good = good && came[i] == 1;
    }
    free(last.at);
    return good && !partial && g.count == 0 && (limit > 0 || answers == most);
}

static int talks(const struct ranked *s) {
    int good = talk(s, 0, ample(s)) && talk(s, NO_LIMIT, 0) && talk(s, NO_LIMIT, ample(s));
    return good && talk(s, 150, ample(s)) && talk(s, NO_LIMIT, 400) && talk(s, 300, 500);
}

/* ---- what goes by elements */

static int positions_stay(const struct ranked *s) {
    int good = 1;
    for (unsigned i = 0; i < s->count; i++) {
        struct result found = {HUB_DONE, 0, s->place[i], s->length[i]};
        good = good && finds(HUB_IN_STORE, s->bytes, i, found);
    }
    return good && finds(HUB_IN_STORE, s->bytes, s->count, refusal(HUB_TOO_MANY, 0, 0));
}

/* ---- the stores */

/* One element in `step` is the one that filters and knowledge are about. */
static void try_store(const char *name, const uint64_t *types, const unsigned *serials, unsigned count, unsigned step) {
    struct ranked *s = store_with(types, serials, count, 0);
    char what[160];
    sprintf(what, "%s: limits and outputs around each page", name);
    document_02(what, in_order(s));
    sprintf(what, "%s: filters that leave in one member alone, or leave out one", name);
    document_02(what, every_one_filtered(s, step));
    sprintf(what, "%s: filters that leave in one type alone", name);
    document_02(what, every_type_filtered(s));
    sprintf(what, "%s: one serial number known, and all but one", name);
    document_02(what, every_one_known(s, step));
    sprintf(what, "%s: talks in which every element comes", name);
    document_02(what, talks(s));
    sprintf(what, "%s: positions in the store stay", name);
    document_02(what, positions_stay(s));
    ranked_free(s);
}

/* Types of all ranks by turns, and serial numbers by a rule of two numbers: of every `among` behind one another the first `share` share
   one. */
static void try_large(const char *name, unsigned share, unsigned among) {
    uint64_t types[MOST];
    unsigned serials[MOST];
    for (unsigned i = 0; i < MOST; i++) {
        types[i] = (i * 7 + 5) % 12;
        serials[i] = i % among < share ? i - i % among : i;
    }
    try_store(name, types, serials, MOST, 51);
}

/* 256 elements of which 255 share a serial number: the last or the first is alone. The lone one has the first rank, or the last. */
static void all_but_one(const char *name, unsigned alone, uint64_t type) {
    uint64_t types[MOST];
    unsigned serials[MOST];
    for (unsigned i = 0; i < MOST; i++) {
        types[i] = i == alone ? type : 2 + i % 4;
        serials[i] = i == alone ? 3 : 4;
    }
    try_store(name, types, serials, MOST, 85);
}

/* Each store of four elements with these serial numbers and the types 1, 3 and 5. */
static int every_type(const unsigned *serials) {
    int good = 1;
    for (unsigned n = 0; good && n < 3 * 3 * 3 * 3; n++) {
        uint64_t types[4] = {1 + 2 * (n % 3), 1 + 2 * (n / 3 % 3), 1 + 2 * (n / 9 % 3), 1 + 2 * (n / 27)};
        struct ranked *s = store_with(types, serials, 4, 0);
        good = in_order(s) && every_one_filtered(s, 1) && every_one_known(s, 1) && talk(s, 0, 0) && positions_stay(s);
        ranked_free(s);
    }
    return good;
}

/* Each way to share serial numbers out to four elements: an element has the number of one before it, or one of its own. Each number
   is named by the first element that has it. */
static void every_four(void) {
    int good = 1;
    for (unsigned n = 0; good && n < 2 * 3 * 4; n++) {
        unsigned serials[4] = {0, n % 2, n / 2 % 3, n / 6};
        if (serials[serials[2]] == serials[2] && serials[serials[3]] == serials[3]) {
            good = every_type(serials);
        }
    }
    document_02("every store of four elements with types 1, 3 and 5, and every way to share serial numbers", good);
}

int main(void) {
    static const uint64_t pairs[] = {5, 4, 3, 2, 1, 0}, mixed[] = {3, 5, 1, 4, 2, 2, 0, 4, 3, 1, 11, 5};
    static const unsigned apart[] = {0, 1, 2, 2, 1, 0}, beside_one_another[] = {0, 0, 2, 2, 4, 4}, inner[] = {9, 2, 2, 2, 2, 9};
    static const unsigned turns[] = {2, 1, 0, 2, 1, 0, 2, 1, 0, 2, 1, 0}, some[] = {0, 5, 2, 0, 5, 7, 6, 0, 2, 9, 5, 1};
    try_store("pairs within one another", pairs, apart, 6, 1);
    try_store("pairs beside one another", pairs, beside_one_another, 6, 1);
    try_store("four within two", pairs, inner, 6, 1);
    try_store("three groups by turns, members of all ranks", mixed, turns, 12, 1);
    try_store("groups of three and two, and lone ones between", mixed, some, 12, 1);
    try_store("no element", pairs, apart, 0, 1);
    try_large("128 groups of 2", 2, 2);
    try_large("32 groups of 5, and 96 lone ones", 5, 8);
    try_large("256 in one group", 256, 256);
    all_but_one("255 in a group before a lone one", 255, 5);
    all_but_one("255 in a group behind a lone storage index", 0, 1);
    all_but_one("255 in a group around a lone one", 100, 2);
    every_four();
    return ended();
}
