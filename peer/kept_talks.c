/* Whole talks of a bench that is killed at any moment: it asks (ask, length, write, read), keeps each answer in its book (keep),
   and saves the book first and the knowledge behind it. A kill throws away all that is not saved, and the bench goes on from what
   is: with limits, offers and buffers that differ each time, one list of filters and one store, which a put may change between two
   talks. When the unmarked answer is saved, the book has every element that the filters let in, and of a group all members, byte
   for byte as the store has them. The same benches are then run with the knowledge saved first, and some of them have to lose
   elements: the comparison finds such a loss. The calls are made by the library, by the peer, or by both in turn. The words: --talks N, --seed N
   and --save FILE, which the book and the answer are written to at which a talk goes wrong. */
#include "cases.h"
#include "lend.h"
#include "model.h"
#include "model_put.h"
#include "sides.h"

#include <signal.h>
#include <stdio.h>
#include <stdlib.h>
#include <string.h>

#define ROOM 2097152u
#define MOST_TURNS 100000u

/* What a bench has. */
struct bench {
    struct text book, knowledge;
};

struct talk {
    uint64_t number;
    struct luck luck;
    unsigned who; /* 0 the library, 1 the peer, 2 both in turn */
    struct maker maker;
    struct text store, filters, request, answer;
    struct bench now, saved; /* in its memory, and on its disk */
    unsigned kills;          /* it is killed at one moment in so many */
    int knowledge_first;     /* the wrong order of saving */
    uint64_t id;
    uint8_t hub[16];
    uint8_t report[HUB_READ_REPORT_BYTES];
};

/* What came of all talks. */
static struct {
    uint64_t talks, answers, kept, kills, between, refused, puts, elements, lost;
} all;

static const char *save_name = "difference.case";
static struct block book_block, answer_block, new_book_block;
static struct talk current;

static void fail(const struct talk *t, const char *what) {
    FILE *to = fopen(save_name, "w");
    struct one_case c;
    printf("talk %llu: %s\n", (unsigned long long)t->number, what);
    if (to != NULL) {
        memset(&c, 0, sizeof c);
        c.call = KEEP;
        c.first = t->now.book;
        c.second = t->answer;
        c.room = t->now.book.length + t->answer.length;
        write_case(to, &c);
        fclose(to);
        printf("book and answer are saved as %s\n", save_name);
    }
    fflush(stdout);
    _Exit(1);
}

static void stopped(int signal_number) {
    (void)signal_number;
    fail(&current, "a call reads or writes memory that was not lent to it");
}

static const struct side *side_of(struct talk *t) {
    return &sides[t->who < 2 ? t->who : luck_below(&t->luck, 2)];
}

static uint64_t told(const struct talk *t, size_t at) {
    return hub_report_number(t->report, at);
}

static void copy(struct text *to, const uint8_t *from, size_t n) {
    text_clear(to);
    text_add(to, from, n);
}

/* ---- kills */

/* Whether the bench is killed at this moment: then it has what is saved, and nothing else. */
static int killed(struct talk *t) {
    if (!luck_one_in(&t->luck, t->kills)) {
        return 0;
    }
    copy(&t->now.book, t->saved.book.at, t->saved.book.length);
    copy(&t->now.knowledge, t->saved.knowledge.at, t->saved.knowledge.length);
    all.kills++;
    return 1;
}

/* Saves one behind the other: whether the bench still runs. */
static int is_saved(struct talk *t) {
    struct text *first = t->knowledge_first ? &t->saved.knowledge : &t->saved.book;
    struct text *second = t->knowledge_first ? &t->saved.book : &t->saved.knowledge;
    const struct text *now = t->knowledge_first ? &t->now.knowledge : &t->now.book;
    copy(first, now->at, now->length);
    if (killed(t)) {
        all.between++;
        return 0;
    }
    now = t->knowledge_first ? &t->now.book : &t->now.knowledge;
    copy(second, now->at, now->length);
    return !killed(t);
}

/* ---- one ask */

static uint64_t some_limit(struct talk *t) {
    switch (luck_below(&t->luck, 4)) {
    case 0:
        return 0;
    case 1:
        return UINT64_MAX;
    default:
        return luck_below(&t->luck, t->store.length + 1);
    }
}

static void ask(struct talk *t) {
    uint64_t number;
    size_t room = t->filters.length + t->now.knowledge.length + 70;
    uint8_t *out = lend_filled(answer_block, room);
    t->id = luck_number(&t->luck);
    number = side_of(t)->ask(t->id, some_limit(t), t->filters.at, t->filters.length, t->now.knowledge.at, t->now.knowledge.length,
                             out, room, t->report, sizeof t->report);
    if (number != 0) {
        fail(t, "the request is refused");
    }
    copy(&t->request, out, (size_t)told(t, HUB_AT_LENGTH));
}

/* The hub's side: the length for what it offers, or for the smallest page if that is more, and then the answer. Whether there is
   one: with a knowledge of too many ranges there is none, and the bench begins anew. */
static int is_answered(struct talk *t) {
    const struct text *s = &t->store, *q = &t->request;
    uint64_t offered = luck_one_in(&t->luck, 2) ? s->length + 65536 : luck_below(&t->luck, s->length + 200);
    uint64_t number = side_of(t)->length(s->at, s->length, q->at, q->length, offered, t->report, sizeof t->report);
    size_t length = (size_t)told(t, HUB_AT_LENGTH);
    uint8_t *out;
    if (number == HUB_TOO_MANY) {
        text_clear(&t->now.knowledge);
        text_clear(&t->saved.knowledge);
        all.refused++;
        return 0;
    }
    if (number != 0 && number != HUB_OUTPUT_TOO_SHORT) {
        fail(t, "the length is not told");
    }
    all.refused += number != 0;
    out = lend_filled(answer_block, length);
    number = side_of(t)->write(s->at, s->length, q->at, q->length, out, length, t->report, sizeof t->report);
    if (number != 0 || told(t, HUB_AT_LENGTH) != length) {
        fail(t, "the answer is not written as its length was told");
    }
    copy(&t->answer, out, length);
    all.answers++;
    return 1;
}

/* ---- keeping it */

/* Makes the call with so much room: its number. What it has no right to touch is as it was. */
static uint64_t keep_with(struct talk *t, const struct text *answer, size_t room, uint8_t *report) {
    const uint8_t *b = lend_copy(book_block, t->now.book.at, t->now.book.length);
    const uint8_t *a = lend_copy(answer_block, answer->at, answer->length);
    uint8_t *new_book = lend_filled(new_book_block, room);
    uint64_t number = side_of(t)->keep(b, t->now.book.length, a, answer->length, new_book, room, report, HUB_REPORT_BYTES);
    if (!kept_beside(new_book_block, room, number == 0 ? hub_report_number(report, HUB_AT_LENGTH) : 0)) {
        fail(t, "an answer that is kept changed bytes beside the new book");
    }
    return number;
}

/* An answer that was damaged on the way has the fault that reading it has, in the second input; one that reads is not used. */
static void keep_damaged(struct talk *t) {
    struct text answer = {0};
    uint8_t report[HUB_REPORT_BYTES], awaited[HUB_REPORT_BYTES];
    uint64_t number, read;
    copy(&answer, t->answer.at, t->answer.length);
    damage(&t->luck, &answer);
    read = side_of(t)->read(answer.at, answer.length, awaited, sizeof awaited);
    number = keep_with(t, &answer, t->now.book.length + answer.length, report);
    if (read != 0 && (number != read || hub_report_number(report, HUB_AT_INPUT) != 1 ||
                      hub_report_number(report, HUB_AT_PLACE) != hub_report_number(awaited, HUB_AT_PLACE))) {
        fail(t, "a damaged answer has another fault where it is kept than where it is read");
    }
    if (read == 0 && number != 0 && number != HUB_TOO_MANY) {
        fail(t, "an answer that reads is not kept");
    }
    all.refused += number != 0;
    text_free(&answer);
}

/* With as much room as both have together, which always suffices; or first with none, and then with what is told. */
static void keep(struct talk *t, struct text *new_book) {
    uint8_t report[HUB_REPORT_BYTES];
    size_t room = t->now.book.length + t->answer.length;
    if (luck_one_in(&t->luck, 2)) {
        if (keep_with(t, &t->answer, 0, report) != HUB_OUTPUT_TOO_SHORT) {
            fail(t, "without room an answer is kept");
        }
        room = (size_t)hub_report_number(report, HUB_AT_LENGTH);
        if (keep_with(t, &t->answer, room - 1, report) != HUB_OUTPUT_TOO_SHORT) {
            fail(t, "with a byte less than is needed an answer is kept");
        }
    }
    if (keep_with(t, &t->answer, room, report) != 0) {
        fail(t, "an answer is not kept");
    }
    copy(new_book, lent(new_book_block, room), (size_t)hub_report_number(report, HUB_AT_LENGTH));
    all.kept++;
}

/* One ask, what comes of it and the kills between: whether the unmarked answer is saved. */
static int turn(struct talk *t) {
    static struct text new_book;
    int partial;
    ask(t);
    if (killed(t) || !is_answered(t) || killed(t)) {
        return 0;
    }
    if (luck_one_in(&t->luck, 8)) {
        keep_damaged(t);
    }
    if (side_of(t)->read(t->answer.at, t->answer.length, t->report, sizeof t->report) != 0 || told(t, HUB_AT_ID) != t->id) {
        fail(t, "the answer does not read, or the id is another");
    }
    partial = told(t, HUB_AT_PARTIAL) == 1;
    keep(t, &new_book);
    if (killed(t)) {
        return 0;
    }
    copy(&t->now.book, new_book.at, new_book.length);
    copy(&t->now.knowledge, t->answer.at + told(t, HUB_AT_PLACE), (size_t)told(t, HUB_AT_LENGTH));
    if (partial && luck_one_in(&t->luck, 4)) {
        return 0; /* it is saved with the next one */
    }
    return is_saved(t) && !partial;
}

/* ---- the book, held to the store */

/* Where the elements of the saved book stand. */
struct listed {
    unsigned count;
    size_t places[MOST_MADE], lengths[MOST_MADE];
};

static void list_book(struct talk *t, struct listed *s) {
    const struct text *book = &t->saved.book;
    const struct side *side = side_of(t);
    uint8_t report[HUB_REPORT_BYTES];
    s->count = 0;
    while (side->element(HUB_IN_STORE, book->at, book->length, s->count, report, sizeof report) == 0) {
        s->places[s->count] = (size_t)hub_report_number(report, HUB_AT_PLACE);
        s->lengths[s->count] = (size_t)hub_report_number(report, HUB_AT_LENGTH);
        s->count++;
    }
}

/* Whether an element of the book has these bytes. */
static int has(const struct talk *t, const struct listed *s, const uint8_t *element, size_t n) {
    unsigned i = 0;
    while (i < s->count && (s->lengths[i] != n || memcmp(t->saved.book.at + s->places[i], element, n) != 0)) {
        i++;
    }
    return i < s->count;
}

/* How many elements of the store the book lacks, of those in groups that the filters let in. */
static unsigned lacks(struct talk *t) {
    static struct model wanted;
    static struct listed there;
    unsigned i, missing = 0;
    t->maker.said = t->maker.ranges = 0;
    begin_model(&wanted, &t->maker);
    list_book(t, &there);
    for (i = 0; i < wanted.begins[wanted.count]; i++) {
        unsigned e = wanted.members[i];
        missing += (unsigned)!has(t, &there, t->store.at + t->maker.places[e], t->maker.lengths[e]);
    }
    all.elements += i;
    return missing;
}

static void ask_for_all(struct talk *t) {
    unsigned turns = 0, missing;
    while (!turn(t)) {
        if (turns++ > MOST_TURNS) {
            fail(t, "there are too many asks");
        }
    }
    missing = lacks(t);
    if (missing > 0 && !t->knowledge_first) {
        fail(t, "the book lacks elements of the store, which are known");
    }
    all.lost += missing > 0;
    all.talks++;
}

/* ---- talks */

static const uint8_t empty[4] = {0xAC, 0x02, 0x00, 0x55};

static void begin_talk(struct talk *t, uint64_t seed, uint64_t number) {
    struct maker *m = &t->maker;
    t->number = number;
    t->luck = luck_from(seed + number);
    t->who = (unsigned)(number % 3);
    t->kills = 3 + (unsigned)luck_below(&t->luck, 60);
    begin_making(m, luck_next(&t->luck), NOT_SPOILED);
    m->scale = luck_one_in(&t->luck, 200) ? 2 : luck_one_in(&t->luck, 3) ? 1 : 0;
    text_clear(&t->store);
    text_clear(&t->filters);
    make_store(m, &t->store);
    make_hub(m, t->hub);
    make_filters(m, &t->filters);
    copy(&t->saved.book, empty, sizeof empty);
    text_clear(&t->saved.knowledge);
    copy(&t->now.book, empty, sizeof empty);
    text_clear(&t->now.knowledge);
}

/* A put changes the store, as the model of it says; series.c holds the calls to that. Whether one was taken. */
static int put_between(struct talk *t) {
    static struct put_model p;
    static struct text elements;
    text_clear(&elements);
    make_elements(&t->maker, &elements);
    begin_put_model(&p, &t->maker, &t->store, &elements, t->hub);
    if (p.refusal != 0) {
        return 0;
    }
    take_put(&p, &t->maker, t->hub);
    copy(&t->store, p.store.at, p.store.length);
    all.puts++;
    return 1;
}

static void run_talk(struct talk *t, uint64_t seed, uint64_t number) {
    unsigned puts;
    begin_talk(t, seed, number);
    ask_for_all(t);
    for (puts = (unsigned)luck_below(&t->luck, 3); puts > 0; puts--) {
        if (put_between(t)) {
            ask_for_all(t);
        }
    }
}

static void read_words(int count, char **words, uint64_t *talks, uint64_t *seed) {
    int i;
    for (i = 1; i + 1 < count; i += 2) {
        if (strcmp(words[i], "--talks") == 0) {
            *talks = strtoull(words[i + 1], NULL, 10);
        } else if (strcmp(words[i], "--seed") == 0) {
            *seed = strtoull(words[i + 1], NULL, 10);
        } else if (strcmp(words[i], "--save") == 0) {
            save_name = words[i + 1];
        } else {
            printf("the words are --talks N, --seed N and --save FILE\n");
            exit(2);
        }
    }
}

/* So many benches in one order of saving, and what came of their talks. */
static void run_order(uint64_t benches, uint64_t seed, int knowledge_first) {
    uint64_t i;
    memset(&all, 0, sizeof all);
    current.knowledge_first = knowledge_first;
    for (i = 0; i < benches; i++) {
        run_talk(&current, seed, i);
    }
    printf("%s saved first: %llu benches, %llu talks with %llu puts between, %llu answers, of which %llu were kept, %llu refusals, "
           "%llu kills, %llu of them between book and knowledge; %llu elements looked for, %llu talks that lost some\n",
           knowledge_first ? "the knowledge" : "the book", (unsigned long long)benches, (unsigned long long)all.talks,
           (unsigned long long)all.puts, (unsigned long long)all.answers, (unsigned long long)all.kept,
           (unsigned long long)all.refused, (unsigned long long)all.kills, (unsigned long long)all.between,
           (unsigned long long)all.elements, (unsigned long long)all.lost);
}

int main(int count, char **words) {
    uint64_t talks = 5000, seed = 1;
    read_words(count, words, &talks, &seed);
    printf("seed %llu\n", (unsigned long long)seed);
    signal(SIGSEGV, stopped);
    signal(SIGBUS, stopped);
    book_block = new_block(ROOM);
    answer_block = new_block(ROOM);
    new_book_block = new_block(ROOM);
    run_order(talks, seed, 0);
    run_order(talks / 10, seed, 1);
    if (all.lost == 0) {
        printf("no talk lost anything with the knowledge saved first: the comparison finds no loss\n");
        return 1;
    }
    printf("0 differences\n");
    return 0;
}
