/* Whole talks against the model of demand 3: one store, one list of filters and a first knowledge of at most 256 ranges and
   entries; then asks with the last answer's knowledge, under limits and outputs that differ each time, with refused asks between.
   Each ask is for the length first and then for the answer, into an output of exactly that length or of as much as was offered.
   Behind many a talk comes a put, and then a talk about the new store, with the knowledge that was told before (talk_puts.c).
   The asks are written, answered and read by the library, by the peer, or by both in turn. The words: --talks N, --seed N and
   --save FILE, which the ask or the put is written to at which a talk goes wrong. */
#include "talk.h"

#include <signal.h>
#include <stdio.h>
#include <stdlib.h>
#include <string.h>

#define NO_LIMIT UINT64_MAX
#define MOST_PUTS 3u

static const char *save_name = "difference.case";

struct tally all;

static struct block store_block, request_block, out_block, answer_block;

/* The last request or put of a talk, as a case. */
static void save_ask(const struct talk *t) {
    FILE *to = fopen(save_name, "w");
    struct one_case c;
    memset(&c, 0, sizeof c);
    c.call = t->call;
    c.first = t->store;
    c.second = t->request;
    c.room = c.offered = t->room;
    c.guid[0] = hub_report_number(t->hub, 0);
    c.guid[1] = hub_report_number(t->hub, 8);
    c.new_room = t->new_room;
    if (to != NULL) {
        write_case(to, &c);
        fclose(to);
        printf("its request is saved as %s\n", save_name);
    }
}

void fail(const struct talk *t, const char *what) {
    printf("talk %llu, %s %u: %s\n", (unsigned long long)t->number, t->call == PUT ? "put behind ask" : "ask", t->asks, what);
    save_ask(t);
    fflush(stdout);
    _Exit(1);
}

/* The talk under way, for a call that touches a protected page. */
static struct talk current;

static void stopped(int signal_number) {
    (void)signal_number;
    fail(&current, "a call reads or writes memory that was not lent to it");
}

const struct side *side_of(struct talk *t) {
    return &sides[t->who < 2 ? t->who : luck_below(&t->luck, 2)];
}

uint64_t told(const struct talk *t, size_t at) {
    return hub_report_number(t->report, at);
}

/* ---- asking */

/* A limit about the sizes of the next pages, or any. */
static uint64_t some_limit(struct talk *t) {
    unsigned left = t->model.count - t->model.sent, n = left == 0 ? 0 : (unsigned)luck_below(&t->luck, left < 4 ? left + 1 : 4);
    uint64_t sum = groups_bytes(&t->model, n);
    switch (luck_below(&t->luck, 10)) {
    case 0:
        return luck_number(&t->luck);
    case 1:
        return NO_LIMIT;
    default:
        return sum + luck_below(&t->luck, 3) - (sum > 0);
    }
}

/* A room about the lengths of the next pages, ample or short. */
static size_t some_room(struct talk *t) {
    unsigned left = t->model.count - t->model.sent, k = left == 0 ? 0 : (unsigned)luck_below(&t->luck, left < 8 ? left + 1 : 8);
    size_t length = length_with(&t->model, t->id, k);
    switch (luck_below(&t->luck, 6)) {
    case 0:
        return length;
    case 1:
        return length - 1;
    case 2:
        return (size_t)luck_below(&t->luck, length);
    case 3:
        return length + (size_t)luck_below(&t->luck, 60);
    default:
        return t->store.length + 65536;
    }
}

static void spell_entry(struct text *to, const uint8_t *guid, uint64_t number) {
    plain_start(to, 0x17, 0, 25);
    text_byte(to, 128);
    text_add(to, guid, 16);
    text_little(to, number, 8);
}

/* What is known, in another form than it was told: the first knowledge as it was, and an entry for each group that was sent, the
   last one first. */
static void spell_known(struct talk *t, struct text *to) {
    static const uint8_t front[] = {0x26, 0x02, 0x20, 0x00, 0xF6, 0x35, 0x7A, 0x32, 0x61, 0x07, 0x14,
                                    0x44, 0x96, 0x86, 0x51, 0xE9, 0x00, 0x66, 0x7A, 0x4D, 0xA4, 0x00};
    static const uint8_t ends[] = {0x51, 0x13, 0x01, 0x41};
    unsigned i;
    text_clear(to);
    if (t->first.length > 0) {
        text_add(to, t->first.at, t->first.length - 1);
        to->length -= (size_t)(t->first.at[t->first.length - 1] == 0); /* the knowledge's end may have two bytes */
    } else {
        plain_start(to, 0x10, 1, 0);
    }
    text_add(to, front, sizeof front);
    for (i = t->model.sent; i > 0; i--) {
        const struct made_name *serial = serial_of_group(&t->model, i - 1);
        spell_entry(to, serial->guid, serial->number);
    }
    text_add(to, ends, sizeof ends);
}

/* Writes the request into the talk. */
static void ask(struct talk *t) {
    size_t room = t->filters.length + t->told.length + 70;
    uint8_t *out = lend_filled(request_block, room);
    uint64_t number = side_of(t)->ask(t->id, t->limit, t->filters.at, t->filters.length, t->told.at, t->told.length, out, room,
                                      t->report, sizeof t->report);
    if (number != 0) {
        fail(t, "the request is refused");
    }
    text_clear(&t->request);
    text_add(&t->request, out, (size_t)told(t, HUB_AT_LENGTH));
}

/* ---- refused asks, which change nothing */

static uint64_t length_for(struct talk *t, const struct text *store, const struct text *request, uint64_t offered) {
    const uint8_t *s = lend_copy(store_block, store->at, store->length);
    const uint8_t *q = lend_copy(request_block, request->at, request->length);
    return side_of(t)->length(s, store->length, q, request->length, offered, t->report, sizeof t->report);
}

static uint64_t write_into(struct talk *t, const struct text *store, const struct text *request, size_t room) {
    const uint8_t *s = lend_copy(store_block, store->at, store->length);
    const uint8_t *q = lend_copy(request_block, request->at, request->length);
    uint8_t *out = lend_filled(out_block, room);
    uint64_t number = side_of(t)->write(s, store->length, q, request->length, out, room, t->report, sizeof t->report);
    if (number != 0 && !kept_from(out_block, room, 0)) {
        fail(t, "a refused ask changed the output");
    }
    if (!kept_before(out_block, room)) {
        fail(t, "bytes before the output are changed");
    }
    return number;
}

/* An ask that is damaged, or one to a damaged store: what comes of it is not used. */
static void ask_damaged(struct talk *t) {
    struct text store = {0}, request = {0};
    size_t room = t->store.length + 65536;
    uint64_t number;
    text_add(&store, t->store.at, t->store.length);
    text_add(&request, t->request.at, t->request.length);
    damage(&t->luck, luck_one_in(&t->luck, 4) ? &store : &request);
    number = length_for(t, &store, &request, room);
    if (write_into(t, &store, &request, room) != number) {
        fail(t, "a damaged ask has another number if it is for the length");
    }
    all.refused += number != 0;
    text_free(&store);
    text_free(&request);
}

/* ---- what came */

/* So many elements come, and they are these, which have these positions in the store. */
static void hold_elements(struct talk *t, const uint8_t *answer, size_t length, const unsigned *members, unsigned count) {
    size_t at = (size_t)told(t, HUB_AT_ELEMENTS);
    unsigned i;
    if (told(t, HUB_AT_COUNT) != count) {
        fail(t, "the answer has another number of elements than the model");
    }
    for (i = 0; i < count; i++) {
        unsigned e = members[i];
        size_t n = t->maker.lengths[e];
        if (n > length - at || memcmp(answer + at, t->store.at + t->maker.places[e], n) != 0) {
            fail(t, "an element is not the next that is wanted");
        }
        if (i < 3 || i + 1 == count) {
            uint8_t report[24];
            uint64_t number = side_of(t)->element(HUB_IN_ANSWER, answer, length, i, report, sizeof report);
            if (number != 0 || hub_report_number(report, HUB_AT_PLACE) != at || hub_report_number(report, HUB_AT_LENGTH) != n) {
                fail(t, "an element is not where it stands");
            }
        }
        at += n;
    }
}

static void hold_index(struct talk *t) {
    unsigned i = made_index(&t->maker);
    int named = i < t->maker.elements;
    if (told(t, HUB_AT_NAMED) != (uint64_t)named) {
        fail(t, "there is a storage index where there is none, or the other way");
    }
    if (named && (memcmp(t->report + HUB_AT_GUID_LOW, t->maker.ids[i].guid, 16) != 0 ||
                  told(t, HUB_AT_GUID_NUMBER) != t->maker.ids[i].number)) {
        fail(t, "the storage index is another");
    }
}

void spell_answer_knowledge(const struct known *known, struct text *to) {
    static const uint8_t front[] = {0x26, 0x02, 0x20, 0x00, 0xF6, 0x35, 0x7A, 0x32, 0x61, 0x07, 0x14,
                                    0x44, 0x96, 0x86, 0x51, 0xE9, 0x00, 0x66, 0x7A, 0x4D, 0xA4, 0x00};
    static const uint8_t ends[] = {0x51, 0x13, 0x01};
    unsigned i;
    text_clear(to);
    plain_start(to, 0x10, 1, 0);
    if (known->count > 0) {
        text_add(to, front, sizeof front);
    }
    for (i = 0; i < known->count; i++) {
        struct text data = {0};
        text_add(&data, known->ranges[i].guid, 16);
        plain_compact(&data, known->ranges[i].from);
        plain_compact(&data, known->ranges[i].to);
        plain_start(to, 0x0F, 0, data.length);
        text_add(to, data.at, data.length);
        text_free(&data);
    }
    if (known->count > 0) {
        text_add(to, ends, sizeof ends);
    }
    plain_end(to, 0x10);
}

/* The knowledge is the first one with exactly what was sent; it is what is asked with next. */
static void hold_knowledge(struct talk *t, const uint8_t *answer) {
    static struct known known;
    static struct text awaited;
    size_t place = (size_t)told(t, HUB_AT_PLACE), length = (size_t)told(t, HUB_AT_LENGTH);
    known_after(&t->model, t->model.sent, &known);
    spell_answer_knowledge(&known, &awaited);
    if (length != awaited.length || memcmp(answer + place, awaited.at, length) != 0) {
        fail(t, "the knowledge is not the first one with what was sent");
    }
    text_clear(&t->told);
    text_add(&t->told, answer + place, length);
}

/* An answer that sends the next k groups. */
static void hold_answer(struct talk *t, size_t room, size_t length, unsigned k) {
    const uint8_t *answer = lend_copy(answer_block, lent(out_block, room), length);
    unsigned from = t->model.begins[t->model.sent], to = t->model.begins[t->model.sent + k];
    if (!kept_from(out_block, room, length)) {
        fail(t, "bytes past the answer are changed");
    }
    if (side_of(t)->read(answer, length, t->report, sizeof t->report) != 0) {
        fail(t, "the answer does not read");
    }
    if (told(t, HUB_AT_ID) != t->id) {
        fail(t, "the id is another");
    }
    hold_elements(t, answer, length, t->model.members + from, to - from);
    hold_index(t);
    t->model.sent += k;
    t->answers++;
    all.answers++;
    all.groups += k;
    all.elements += to - from;
    hold_knowledge(t, answer);
    if (told(t, HUB_AT_PARTIAL) != (uint64_t)(t->model.sent < t->model.count)) {
        fail(t, "the mark is wrong");
    }
}

/* ---- talks */

/* Both calls for one request: whether the answer was written, which then is as long as the model says. */
static int is_written(struct talk *t, int refused, size_t length) {
    uint64_t awaited = refused ? HUB_OUTPUT_TOO_SHORT : HUB_DONE;
    t->call = LENGTH;
    if (length_for(t, &t->store, &t->request, t->room) != awaited || told(t, HUB_AT_LENGTH) != length) {
        fail(t, "number or length is not the model's when the length is asked for");
    }
    t->call = WRITE;
    if (!refused && luck_one_in(&t->luck, 2)) {
        t->room = length;
    }
    if (write_into(t, &t->store, &t->request, t->room) != awaited || told(t, HUB_AT_LENGTH) != length) {
        fail(t, "number or length is not the model's");
    }
    return !refused;
}

/* One ask, and what comes of it. */
static void turn(struct talk *t) {
    size_t length;
    unsigned k;
    int refused;
    t->asks++;
    t->call = WRITE;
    t->id = luck_number(&t->luck);
    t->limit = some_limit(t);
    t->room = some_room(t);
    if (t->answers > 0 && luck_one_in(&t->luck, 4) && t->maker.said + t->model.sent <= 512) {
        spell_known(t, &t->told);
    }
    ask(t);
    if (luck_one_in(&t->luck, 3)) {
        ask_damaged(t);
    }
    k = page_under(&t->model, t->id, t->limit, t->room, &refused);
    length = length_with(&t->model, t->id, k);
    all.refused += (uint64_t)refused;
    if (is_written(t, refused, length)) {
        hold_answer(t, t->room, length, k);
    }
}

static void begin_talk(struct talk *t, uint64_t seed, uint64_t number) {
    struct maker *m = &t->maker;
    t->number = number;
    t->luck = luck_from(seed + number);
    t->who = (unsigned)(number % 3);
    t->answers = t->asks = 0;
    begin_making(m, luck_next(&t->luck), NOT_SPOILED);
    m->scale = luck_one_in(&t->luck, 150) ? 2 : luck_one_in(&t->luck, 3) ? 1 : 0;
    text_clear(&t->store);
    text_clear(&t->filters);
    text_clear(&t->first);
    m->high = luck_one_in(&t->luck, 10);
    make_store(m, &t->store);
    make_hub(m, t->hub);
    make_filters(m, &t->filters);
    make_knowledge(m, &t->first, 12);
    if (m->said > 256 || luck_one_in(&t->luck, 4)) {
        text_clear(&t->first);
        m->said = m->ranges = 0;
    }
    t->knows_all = m->filters == 0 && m->ranges == 0;
    text_clear(&t->told);
    text_add(&t->told, t->first.at, t->first.length);
    begin_model(&t->model, m);
}

/* A talk ends at an unmarked answer: at the n-th or sooner, if n groups were wanted, at the first if none. */
static void ask_for_all(struct talk *t) {
    unsigned most = t->model.count > 0 ? t->model.count : 1;
    t->answers = t->asks = 0;
    do {
        if (t->asks > 40 * most + 400) {
            fail(t, "there are too many asks");
        }
        turn(t);
    } while (t->answers == 0 || t->model.sent < t->model.count); /* hold_answer held the mark to this */
    if (t->answers > most) {
        fail(t, "there are more answers than wanted groups");
    }
    all.talks++;
    all.longest = t->answers > all.longest ? t->answers : all.longest;
}

/* A talk, and with each put that is taken a talk more. */
static void run_talk(struct talk *t, uint64_t seed, uint64_t number) {
    unsigned puts;
    begin_talk(t, seed, number);
    ask_for_all(t);
    for (puts = (unsigned)luck_below(&t->luck, MOST_PUTS + 1); puts > 0; puts--) {
        if (put_between(t)) {
            ask_for_all(t);
        }
    }
}

static void read_words(int count, char **words, uint64_t *talks, uint64_t *seed) {
    int i;
    for (i = 1; i + 1 < count; i += 2) {
        if (strcmp(words[i], "--talks") == 0) {
            *talks = strtoull(words[i + 1], NULL, 10);
        } else if (strcmp(words[i], "--seed") == 0) {
            *seed = strtoull(words[i + 1], NULL, 10);
        } else if (strcmp(words[i], "--save") == 0) {
            save_name = words[i + 1];
        } else {
            printf("the words are --talks N, --seed N and --save FILE\n");
            exit(2);
        }
    }
}

int main(int count, char **words) {
    uint64_t talks = 5000, seed = 1, i;
    read_words(count, words, &talks, &seed);
    printf("seed %llu\n", (unsigned long long)seed);
    signal(SIGSEGV, stopped);
    signal(SIGBUS, stopped);
    store_block = new_block(ROOM);
    request_block = new_block(ROOM);
    out_block = new_block(ROOM);
    answer_block = new_block(ROOM);
    begin_puts();
    for (i = 0; i < talks; i++) {
        run_talk(&current, seed, i);
    }
    printf("%llu talks, %llu answers, %llu elements in %llu groups, %llu refused asks between; the longest talk had %llu answers\n",
           (unsigned long long)all.talks, (unsigned long long)all.answers, (unsigned long long)all.elements,
           (unsigned long long)all.groups, (unsigned long long)all.refused, (unsigned long long)all.longest);
    printf("%llu puts between, of %llu elements, and %llu refused; behind %llu a bench that knew everything got these alone\n",
           (unsigned long long)all.puts, (unsigned long long)all.entered, (unsigned long long)all.refused_puts,
           (unsigned long long)all.exact);
    printf("0 differences\n");
    return 0;
}
