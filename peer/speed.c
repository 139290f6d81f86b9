/* Times the library against the peer and against memcpy of what is handed in, in one run, with buffers that are not cleared
   between. It is told by whom it was compiled and whether it runs natively: under an emulator there is no verdict. Words:
   native|emulated COMPILER FLAGS. The mark, native: no case slower than 1.2 times the peer, but depth 16, at most 1.7, and
   tiny objects, at most 1.0; most but for the answer that is kept at 1.0 or under; cost linear in headers; and the two calls that answer a request, one behind the
   other, on 256 small elements at most 1.9 times the one that writes. What an empty store takes is only told, and so is
   what 256 small elements take whose ranks are mixed, or which are in 128 groups or in one, where by themselves each has a serial
   number of its own. */
#define _POSIX_C_SOURCE 199309L
#include "cases.h"
#include "sides.h"

#include <stdio.h>
#include <stdlib.h>
#include <string.h>
#include <time.h>

#define ROUNDS 100u  /* many short ones, as the least is taken and a machine is seldom quiet for long */
#define SECONDS 0.25 /* for each of the three in each case */
#define OUT 16842752u
#define CASES 16u
#define MARKED 10u /* the first of them are held to the peer; the others are only told */
#define COUNTED 9u /* and of the first of these most are to be at 1.0 or under; to keep an answer is to copy a book, and has its mark alone */
#define BOTH_AT_MOST 1.9 /* of 256 small elements; an empty store takes a quarter of a microsecond, and is only told */

#ifdef PEER_ALONE
#define LINKED 0
#else
#define LINKED 1
#endif

/* A case: an answer to be written or, with LENGTH, its length to be asked for and then it to be written; one to be read; a put to be
   taken; or an answer to be kept in a book. */
struct timed {
    const char *name;
    enum call call;
    struct text first, second;
    double library, peer, copy; /* seconds a call, the least of the rounds */
    double mark;                /* at most so many times the peer */
};

static uint8_t *out, *new_store, *copied, report[88];
static uint64_t sink;

static uint64_t write_into(const struct side *side, const struct timed *c, size_t room) {
    return side->write(c->first.at, c->first.length, c->second.at, c->second.length, out, room, report, sizeof report);
}

/* As a daemon does it: the length first, and then the answer into an output of exactly so much. */
static uint64_t ask_and_write(const struct side *side, const struct timed *c) {
    uint64_t number = side->length(c->first.at, c->first.length, c->second.at, c->second.length, OUT, report, sizeof report);
    return number != 0 ? number : write_into(side, c, (size_t)hub_report_number(report, HUB_AT_LENGTH));
}

static uint64_t run_side(const struct side *side, const struct timed *c) {
    switch (c->call) {
    case LENGTH:
        return ask_and_write(side, c);
    case READ:
        return side->read(c->first.at, c->first.length, report, sizeof report);
    case PUT:
        return side->put(c->first.at, c->first.length, c->second.at, c->second.length, 0x5E, 0, new_store, OUT, out, OUT, report,
                         sizeof report);
    case KEEP:
        return side->keep(c->first.at, c->first.length, c->second.at, c->second.length, new_store, OUT, report, sizeof report);
    default:
        return write_into(side, c, OUT);
    }
}

/* 0 the library, 1 the peer, 2 memcpy. */
static void run_one(unsigned who, const struct timed *c) {
    if (who < 2) {
        sink += run_side(&sides[who], c);
    } else {
        memcpy(copied, c->first.at, c->first.length);
        if (c->second.length > 0) {
            memcpy(copied + c->first.length, c->second.at, c->second.length);
        }
        sink += copied[c->first.length / 2];
    }
}

/* The processor's time for this program, so that what else runs on the machine counts less. */
static double now(void) {
    struct timespec t;
    clock_gettime(CLOCK_PROCESS_CPUTIME_ID, &t);
    return (double)t.tv_sec + (double)t.tv_nsec / 1e9;
}

static double seconds_for(unsigned who, const struct timed *c, uint64_t repeats) {
    double from = now();
    uint64_t i;
    for (i = 0; i < repeats; i++) {
        run_one(who, c);
    }
    return now() - from;
}

/* So many calls that they take a round's share of the time. */
static uint64_t repeats_for(unsigned who, const struct timed *c) {
    uint64_t n = 1;
    double seconds = seconds_for(who, c, n);
    while (seconds < 0.001 && n < 1u << 24) {
        n *= 2;
        seconds = seconds_for(who, c, n);
    }
    n = (uint64_t)((double)n * SECONDS / ROUNDS / (seconds > 1e-9 ? seconds : 1e-9));
    return n > 0 ? n : 1;
}

static void time_case(struct timed *c) {
    double least[3] = {1e9, 1e9, 1e9};
    uint64_t repeats[3];
    unsigned who, round;
    for (who = 0; who < 3; who++) {
        repeats[who] = repeats_for(who, c);
    }
    for (round = 0; round < ROUNDS; round++) {
        for (who = 0; who < 3; who++) {
            double one = seconds_for(who, c, repeats[who]) / (double)repeats[who];
            least[who] = one < least[who] ? one : least[who];
        }
    }
    c->library = least[0];
    c->peer = least[1];
    c->copy = least[2];
}

/* ---- the cases */

static void add_range(struct text *t, uint64_t from, uint64_t to) {
    struct text data = {0};
    text_byte(&data, 0x5E); /* the GUID of the serial numbers of plain elements */
    text_like(&data, 15, 0);
    plain_compact(&data, from);
    plain_compact(&data, to);
    plain_start(t, 0x0F, 0, data.length);
    text_add(t, data.at, data.length);
    text_free(&data);
}

/* n ranges, every `step` numbers from `first` on, of so many more numbers. */
static void add_knowledge(struct text *t, unsigned n, uint64_t first, uint64_t step, uint64_t more) {
    static const uint8_t front[] = {0x84, 0x00, 0x26, 0x02, 0x20, 0x00, 0xF6, 0x35, 0x7A, 0x32, 0x61, 0x07,
                                    0x14, 0x44, 0x96, 0x86, 0x51, 0xE9, 0x00, 0x66, 0x7A, 0x4D, 0xA4, 0x00};
    static const uint8_t ends[] = {0x51, 0x13, 0x01, 0x41};
    unsigned i;
    text_add(t, front, sizeof front);
    for (i = 0; i < n; i++) {
        add_range(t, first + i * step, first + i * step + more);
    }
    text_add(t, ends, sizeof ends);
}

static void begin_store(struct text *t) {
    plain_start(t, 0x15, 1, 1);
    text_byte(t, 0);
}

static void small_store(struct text *t, size_t inside) {
    unsigned i;
    begin_store(t);
    for (i = 0; i < 256; i++) {
        plain_element(t, i, i == 0 ? 1 : 5, inside);
    }
    plain_end(t, 0x15);
}

static void nothing_wanted(struct timed *c) {
    struct text parts = {0};
    c->call = WRITE;
    c->name = "nothing wanted (256 small elements, all known)";
    small_store(&c->first, 0);
    add_knowledge(&parts, 1, 0, 1, 255);
    plain_request(&c->second, 0, &parts);
    text_free(&parts);
}

static void all_wanted(struct timed *c) {
    c->call = WRITE;
    c->name = "256 small elements, all wanted";
    small_store(&c->first, 0);
    plain_request(&c->second, 0, NULL);
}

/* As many, whose ranks fall and rise all the way: they go out in another order than the store has them. */
static void ranks_by_turns(struct timed *c) {
    unsigned i;
    c->call = WRITE;
    c->name = "256 small elements, their ranks by turns";
    begin_store(&c->first);
    for (i = 0; i < 256; i++) {
        plain_element(&c->first, i, 5 - i % 5, 0);
    }
    plain_end(&c->first, 0x15);
    plain_request(&c->second, 0, NULL);
}

/* As many in so many groups, whose members stand as far apart as they can. */
static void in_groups(struct timed *c, unsigned groups, const char *name) {
    unsigned i;
    c->call = WRITE;
    c->name = name;
    begin_store(&c->first);
    for (i = 0; i < 256; i++) {
        plain_element_under(&c->first, i, i % groups, i == 0 ? 1 : 5, 0);
    }
    plain_end(&c->first, 0x15);
    plain_request(&c->second, 0, NULL);
}

static void long_elements(struct timed *c) {
    c->call = WRITE;
    c->name = "256 elements of 64 KiB less a little";
    small_store(&c->first, 65480);
    plain_request(&c->second, 0, NULL);
}

/* Each new number stands behind a range and before a gap, in an order that jumps. */
static void scattered(struct timed *c) {
    struct text parts = {0};
    unsigned i;
    c->call = WRITE;
    c->name = "512 known ranges, 256 new serial numbers scattered";
    begin_store(&c->first);
    for (i = 0; i < 256; i++) {
        plain_element(&c->first, i * 197 % 512 * 1000 + 5, 5, 0);
    }
    plain_end(&c->first, 0x15);
    add_knowledge(&parts, 512, 0, 1000, 4);
    plain_request(&c->second, 0, &parts);
    text_free(&parts);
}

static void many_filters(struct timed *c) {
    struct text parts = {0};
    unsigned i, j;
    c->call = WRITE;
    c->name = "16 filters of 64 ids over 256 elements";
    small_store(&c->first, 0);
    for (i = 0; i < 16; i++) {
        struct text data = {0};
        plain_compact(&data, 64);
        for (j = 0; j < 64; j++) { /* every fourth element; the numbers are of the forms of one byte and of two */
            unsigned number = j * 4 + i % 4;
            text_little(&data, number < 32 ? number << 3 | 4 : number << 6 | 32, number < 32 ? 1 : 2);
            text_byte(&data, 0x1D);
            text_like(&data, 15, 0);
        }
        plain_start(&parts, 0x47, 1, 2);
        text_byte(&parts, 6);
        text_byte(&parts, i % 3 != 0);
        plain_start(&parts, 0x54, 0, data.length);
        text_add(&parts, data.at, data.length);
        plain_end(&parts, 0x47);
        text_free(&data);
    }
    plain_request(&c->second, 0, &parts);
    text_free(&parts);
}

/* Nests of 14 inside elements, so that 16 are open. */
static void deep(struct timed *c) {
    unsigned i, j, k;
    c->call = WRITE;
    c->name = "depth 16 (256 elements, 16 nests of 14 each)";
    begin_store(&c->first);
    for (i = 0; i < 256; i++) {
        plain_element(&c->first, i, 5, 0);
        c->first.length--;
        for (j = 0; j < 16; j++) {
            for (k = 0; k < 14; k++) {
                plain_start(&c->first, 0x1D, 1, 0);
            }
            for (k = 0; k < 14; k++) {
                plain_end(&c->first, 0x1D);
            }
        }
        plain_end(&c->first, 0x01);
    }
    plain_end(&c->first, 0x15);
    plain_request(&c->second, 0, NULL);
}

/* n objects of 0 to 3 bytes in 200 elements, all known, so that reading is what costs. */
static void tiny_objects(struct timed *c, unsigned n) {
    struct text parts = {0};
    unsigned i, j;
    c->call = WRITE;
    c->name = "a store of 2,000,000 tiny objects";
    begin_store(&c->first);
    for (i = 0; i < 200; i++) {
        plain_element(&c->first, i, 5, 0);
        c->first.length--;
        for (j = 0; j < n / 200; j++) {
            plain_start(&c->first, 0x1D, 0, j % 4);
            text_like(&c->first, j % 4, 0x77);
        }
        plain_end(&c->first, 0x01);
    }
    plain_end(&c->first, 0x15);
    add_knowledge(&parts, 1, 0, 1, 255);
    plain_request(&c->second, 0, &parts);
    text_free(&parts);
}

/* The answer to the scattered case: 256 elements and 512 ranges. */
static void an_answer(struct timed *c, const struct timed *asked) {
    c->name = "reading an answer of 256 elements and 512 ranges";
    c->call = READ;
    if (run_side(&sides[1], asked) != 0) {
        printf("there is no answer to read\n");
        exit(2);
    }
    text_add(&c->first, out, (size_t)hub_report_number(report, HUB_AT_LENGTH));
}

/* One of the long elements is replaced, so that there are as many as before. Its serial number is new under the GUID of the others,
   and the storage index is the first of them. */
static void one_put(struct timed *c) {
    static const struct made_name index = {{0x1D}, 0};
    struct text element = {0};
    c->name = "a put of one element of 64 KiB into 256 of them";
    c->call = PUT;
    small_store(&c->first, 65480);
    plain_element(&element, 128, 5, 65480);
    plain_put(&c->second, &index, &element);
    text_free(&element);
}

/* The same element comes in an answer, and replaces one of a book of as many. */
static void one_kept(struct timed *c) {
    struct text package = {0};
    c->name = "an answer of one of 64 KiB kept in a book of 256";
    c->call = KEEP;
    small_store(&c->first, 65480);
    begin_store(&package);
    plain_element(&package, 128, 5, 65480);
    plain_end(&package, 0x15);
    plain_answer(&c->second, &package);
    text_free(&package);
}

static void no_elements(struct timed *c) {
    c->call = WRITE;
    c->name = "an empty store";
    begin_store(&c->first);
    plain_end(&c->first, 0x15);
    plain_request(&c->second, 0, NULL);
}

/* ---- what is told */

/* Both give the same, or times would mean nothing. */
static void hold_same(const struct timed *c) {
    uint64_t numbers[2], lengths[2];
    unsigned who;
    for (who = 0; who < 2; who++) {
        numbers[who] = run_side(&sides[who], c);
        lengths[who] = hub_report_number(report, HUB_AT_LENGTH);
    }
    if (numbers[0] != 0 || numbers[1] != 0 || lengths[0] != lengths[1]) {
        printf("%s: library %llu, peer %llu\n", c->name, (unsigned long long)numbers[0], (unsigned long long)numbers[1]);
        exit(2);
    }
}

static void tell_case(const struct timed *c) {
    printf("%-52s %10.2f us %10.2f us %10.2f us   %6.2f %8.2f\n", c->name, c->library * 1e6, c->peer * 1e6, c->copy * 1e6,
           c->library / c->peer, c->library / c->copy);
}

/* Cost a header at a quarter, a half and all of the tiny objects: whether the library's is within a fifth of each other. */
static int tell_headers(void) {
    double least = 1e9, most = 0;
    unsigned n;
    for (n = 500000; n <= 2000000; n *= 2) {
        struct timed c;
        double library, peer;
        memset(&c, 0, sizeof c);
        tiny_objects(&c, n);
        time_case(&c);
        library = c.library / n * 1e9;
        peer = c.peer / n * 1e9;
        printf("%8u headers: %6.2f ns each by the library, %6.2f by the peer\n", n, library, peer);
        least = library < least ? library : least;
        most = library > most ? library : most;
        text_free(&c.first);
        text_free(&c.second);
    }
    return most <= least * 1.2;
}

/* Both calls against the one that writes, of the same case: whether the library's are within their mark. */
static int tell_both(const struct timed *both, const struct timed *one) {
    double library = both->library / one->library;
    printf("%-52s %6.2f times the one that writes, by the peer %.2f\n", both->name, library, both->peer / one->peer);
    return library <= BOTH_AT_MOST;
}

static void tell_verdict(const struct timed *cases, unsigned n, int linear, int both) {
    unsigned i, slow = 0, even = 0;
    for (i = 0; i < n; i++) {
        slow += cases[i].library > cases[i].peer * cases[i].mark;
        even += i < COUNTED && cases[i].library <= cases[i].peer;
    }
    printf("slower than its mark: %u of %u; at 1.0 or under: %u of %u; linear in headers: %s; both calls within theirs: %s\n", slow,
           n, even, COUNTED, linear ? "yes" : "no", both ? "yes" : "no");
    printf("the mark is %s\n", slow == 0 && even * 2 > COUNTED && linear && both ? "met" : "not met");
}

static void make_cases(struct timed *cases) {
    unsigned i;
    nothing_wanted(&cases[0]);
    all_wanted(&cases[1]);
    long_elements(&cases[2]);
    scattered(&cases[3]);
    many_filters(&cases[4]);
    deep(&cases[5]);
    tiny_objects(&cases[6], 2000000);
    an_answer(&cases[7], &cases[3]);
    one_put(&cases[8]);
    one_kept(&cases[9]);
    no_elements(&cases[10]);
    no_elements(&cases[11]);
    cases[11].call = LENGTH;
    cases[11].name = "both calls, an empty store";
    all_wanted(&cases[12]);
    cases[12].call = LENGTH;
    cases[12].name = "both calls, 256 small elements, all wanted";
    ranks_by_turns(&cases[13]);
    in_groups(&cases[14], 128, "256 small elements in 128 groups");
    in_groups(&cases[15], 1, "256 small elements in one group");
    for (i = 0; i < MARKED; i++) {
        cases[i].mark = 1.2;
    }
    cases[5].mark = 1.7; /* the form that document 01 names takes a call for each compound object */
    cases[6].mark = 1.0;
}

int main(int count, char **words) {
    static struct timed cases[CASES];
    int native = count > 1 && strcmp(words[1], "native") == 0, linear, both;
    unsigned i;
    out = malloc(OUT);
    new_store = malloc(OUT);
    copied = malloc(2 * (size_t)OUT);
    if (out == NULL || new_store == NULL || copied == NULL) {
        printf("there is no memory\n");
        return 2;
    }
    make_cases(cases);
    printf("%s; compiler of the peer: %s; flags: %s\n", native ? "native" : "emulated", count > 2 ? words[2] : "?",
           count > 3 ? words[3] : "?");
    printf("%-52s %13s %13s %13s   %6s %8s\n", "a call", "library", "peer", "memcpy", "l/peer", "l/memcpy");
    for (i = 0; i < CASES; i++) {
        hold_same(&cases[i]);
        time_case(&cases[i]);
        tell_case(&cases[i]);
    }
    linear = tell_headers();
    (void)tell_both(&cases[11], &cases[10]);
    both = tell_both(&cases[12], &cases[1]);
    if (!LINKED) {
        printf("no verdict: the peer stood in the library's place too\n");
    } else if (!native) {
        printf("no verdict: the times are an emulator's\n");
    } else {
        tell_verdict(cases, MARKED, linear, both);
    }
    return sink == UINT64_MAX;
}
