/* Compares the library with the peer on generated cases: valid, nearly valid (one decision spoiled), damaged, cut at each place,
   with --keeps books and answers that are kept in them, with --bytes every byte of a few cases changed to every other, and with
   --large at 16,777,216 bytes and one more. The words: --cases N, --seed N, --keeps, --bytes, --large, --save FILE, --replay FILE,
   --lent FILE. The seed is printed. A difference ends the run
   with status 1, and its case is saved. With --replay it makes the calls of a file of stored cases again instead, and --lent
   names the file that is told how many of them lend tables (field.h). */
#include "cases.h"
#include "field.h"
#include "generate.h"
#include "hub.h"
#include "large.h"
#include "peer.h"

#include <signal.h>
#include <stdlib.h>
#include <string.h>

#define LONGEST_SMALL 1048576u

struct run {
    uint64_t seed, cases;
    int large, bytes, keeps;
    const char *save, *replay, *lent;
    uint64_t done, answered, refused[HUB_NO_SERIAL_LEFT + 1];
};

static void save_case(const struct run *r, const struct one_case *c) {
    FILE *to = fopen(r->save, "w");
    if (to == NULL) {
        printf("the case cannot be saved as %s\n", r->save);
        return;
    }
    write_case(to, c);
    fclose(to);
    printf("the case is saved as %s\n", r->save);
}

/* The case under way, for a call that touches a protected page. */
static const struct run *current_run;
static const struct one_case *current_case;

static void say_difference(const struct run *r, const struct one_case *c) {
    printf("library and peer differ in case %llu of seed %llu\n", (unsigned long long)r->done, (unsigned long long)r->seed);
    save_case(r, c);
}

/* The signal comes out of a call, and not out of the driver's own output, so that there is no harm in writing more here. */
static void stopped(int signal_number) {
    printf("signal %d: a call reads or writes memory that was not lent to it\n", signal_number);
    if (current_case != NULL) {
        say_difference(current_run, current_case);
    }
    say_field_stopped();
    fflush(stdout);
    _Exit(1);
}

/* Runs one case. */
static void run_case(struct run *r, const struct one_case *c) {
    struct outcome o;
    current_run = r;
    current_case = c;
    if (!agree(c, &o)) {
        say_difference(r, c);
        exit(1);
    }
    r->done++;
    r->answered += o.number == 0;
    if (o.number <= HUB_NO_SERIAL_LEFT) {
        r->refused[o.number]++;
    }
}

/* ---- generated cases */

/* One input of a valid case cut at each place. */
static void run_cuts(struct run *r, struct luck *l, struct one_case *c, struct text *input) {
    size_t whole = input->length;
    for (input->length = 0; input->length < whole; input->length++) {
        lend_rooms(l, c);
        run_case(r, c);
    }
}

static void run_all_cuts(struct run *r, struct luck *l, struct one_case *c) {
    unsigned i;
    for (i = 0; i < 24; i++) {
        c->call = (enum call)(i % 8);
        c->kind = c->named = i / 8;
        c->id = c->position = c->number = 1;
        c->limit = i;
        do {
            fill_case(c, luck_next(l), NOT_SPOILED);
        } while (c->first.length + c->second.length > 600);
        run_cuts(r, l, c, &c->first);
        run_cuts(r, l, c, &c->second);
    }
}

/* Books and answers, of which a few are cut first. */
static void run_keeps(struct run *r) {
    struct luck l = luck_from(r->seed);
    struct one_case c;
    unsigned i;
    memset(&c, 0, sizeof c);
    c.call = KEEP;
    for (i = 0; i < 3; i++) {
        do {
            fill_case(&c, luck_next(&l), NOT_SPOILED);
        } while (c.first.length < 100 || c.second.length < 100 || c.first.length + c.second.length > 800);
        run_cuts(r, &l, &c, &c.first);
        run_cuts(r, &l, &c, &c.second);
    }
    while (r->done < r->cases) {
        make_keep_case(&l, &c);
        run_case(r, &c);
    }
    text_free(&c.first);
    text_free(&c.second);
}

static void run_cases(struct run *r) {
    struct luck l = luck_from(r->seed);
    struct one_case c;
    memset(&c, 0, sizeof c);
    run_all_cuts(r, &l, &c);
    while (r->done < r->cases) {
        make_case(&l, &c);
        run_case(r, &c);
    }
    text_free(&c.first);
    text_free(&c.second);
}

/* ---- every byte */

/* Each byte of one input changed to every other; the rooms are those of the case as it was. */
static void run_bytes(struct run *r, const struct one_case *c, const struct text *input) {
    size_t i;
    unsigned change;
    for (i = 0; i < input->length; i++) {
        for (change = 1; change < 256; change++) {
            input->at[i] ^= (uint8_t)change;
            run_case(r, c);
            input->at[i] ^= (uint8_t)change;
        }
    }
}

/* Whether a put expects a storage index, which an empty store has not. */
static int expects_index(const struct text *put) {
    static const uint8_t empty[] = {0xAC, 0x02, 0x00, 0x55};
    return peer_put(empty, sizeof empty, put->at, put->length, 0, 0, NULL, 0, NULL, 0, NULL, 0) == HUB_OTHER_INDEX;
}

/* Whether a case has some length, and no fault; if it is a put, with a storage index. */
static int is_fit(const struct one_case *c) {
    struct outcome o;
    return c->first.length >= 60 && c->first.length <= 140 && (!takes_two(c->call) || c->second.length >= 60) &&
           c->second.length <= 200 && (c->call != PUT || expects_index(&c->second)) && (!agree(c, &o) || o.number == 0);
}

/* Of each call one case that is fit for it. */
static void run_every_byte(struct run *r) {
    static const enum call calls[] = {LENGTH, WRITE, ASK, READ, FIND, FIND, PUT, ASK_PUT, READ_PUT, KEEP};
    struct luck l = luck_from(r->seed);
    struct one_case c;
    unsigned i;
    memset(&c, 0, sizeof c);
    for (i = 0; i < sizeof calls / sizeof *calls; i++) {
        c.call = calls[i];
        c.kind = i == 4;
        c.report = 88;
        c.limit = 100;
        do {
            fill_case(&c, luck_next(&l), NOT_SPOILED);
            c.room = writes(c.call) ? room_needed(&c) + 60 : 0;
            c.offered = c.call == LENGTH ? room_needed(&c) + 60 : 0;
            c.new_room = c.call == PUT ? new_room_needed(&c) + 60 : 0;
        } while (!is_fit(&c));
        run_bytes(r, &c, &c.first);
        run_bytes(r, &c, &c.second);
    }
    text_free(&c.first);
    text_free(&c.second);
}

/* ---- large cases */

static struct run *large_run;

static void run_large(const struct one_case *c) {
    run_case(large_run, c);
}

/* ---- words */

/* A word that takes no other behind it: whether it is one. */
static int take_mode(struct run *r, const char *word) {
    int large = strcmp(word, "--large") == 0, bytes = strcmp(word, "--bytes") == 0, keeps = strcmp(word, "--keeps") == 0;
    r->large |= large;
    r->bytes |= bytes;
    r->keeps |= keeps;
    return large || bytes || keeps;
}

static void read_words(struct run *r, int count, char **words) {
    int i;
    for (i = 1; i < count; i++) {
        const char *value = i + 1 < count ? words[i + 1] : "";
        if (take_mode(r, words[i])) {
            continue;
        }
        if (strcmp(words[i], "--cases") == 0) {
            r->cases = strtoull(value, NULL, 10);
        } else if (strcmp(words[i], "--seed") == 0) {
            r->seed = strtoull(value, NULL, 10);
        } else if (strcmp(words[i], "--save") == 0) {
            r->save = value;
        } else if (strcmp(words[i], "--replay") == 0) {
            r->replay = value;
        } else if (strcmp(words[i], "--lent") == 0) {
            r->lent = value;
        } else {
            printf("the words are --cases N, --seed N, --keeps, --bytes, --large, --save FILE, --replay FILE and --lent FILE\n");
            exit(2);
        }
        i++;
    }
}

int main(int count, char **words) {
    struct run r;
    unsigned i;
    memset(&r, 0, sizeof r);
    r.seed = 1;
    r.cases = 100000;
    r.save = "difference.case";
    read_words(&r, count, words);
    signal(SIGSEGV, stopped);
    signal(SIGBUS, stopped);
    if (r.replay != NULL) {
        return field_cases(r.replay, r.lent);
    }
    begin_cases(r.large ? LARGEST_CASE : LONGEST_SMALL);
    printf("seed %llu\n", (unsigned long long)r.seed);
    large_run = &r;
    if (r.large) {
        large_cases(run_large);
    } else if (r.bytes) {
        run_every_byte(&r);
    } else if (r.keeps) {
        run_keeps(&r);
    } else {
        run_cases(&r);
    }
    printf("%llu cases, %llu without a refusal; by number of refusal:", (unsigned long long)r.done, (unsigned long long)r.answered);
    for (i = 1; i <= HUB_NO_SERIAL_LEFT; i++) {
        printf(" %u: %llu", i, (unsigned long long)r.refused[i]);
    }
    printf("\n0 differences\n");
    return 0;
}
