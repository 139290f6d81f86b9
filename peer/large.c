/* Cases of 16,777,216 and 16,777,217 bytes, in answers that are read 16,842,752 and 16,842,753. Each is right but for its length,
   or is cut, or has its last byte spoiled. */
#include "large.h"
#include "generate.h"

#include <stdlib.h>
#include <string.h>

#define LONGEST 16777216u
#define LONGEST_ANSWER 16842752u

/* How many bytes of data an object has that takes `whole` bytes with its header: the true length behind that takes three bytes
   or four. */
static size_t data_in(size_t whole) {
    return whole - 7 < 0x200000 ? whole - 7 : whole - 8;
}

static void hold_length(const struct text *t, size_t whole) {
    if (t->length != whole) {
        printf("a case has %zu bytes and not %zu\n", t->length, whole);
        exit(2);
    }
}

/* A package of n elements with so many bytes inside each, in an input of exactly `whole` bytes: the last takes up what is left.
   They have serial numbers by turns out of so many. */
static void fill_package_in(struct text *t, size_t whole, unsigned n, size_t inside, unsigned groups) {
    unsigned i;
    struct text last = {0};
    plain_start(t, 0x15, 1, 1);
    text_byte(t, 0);
    for (i = 0; i + 1 < n; i++) {
        plain_element_under(t, i, i % groups, 5, inside);
    }
    plain_element_under(&last, i, i % groups, 1, 0);
    plain_element_under(t, i, i % groups, 1, data_in(whole - t->length - 1 - last.length));
    text_free(&last);
    plain_end(t, 0x15);
    hold_length(t, whole);
}

/* Each has one of its own. */
static void fill_package(struct text *t, size_t whole, unsigned n, size_t inside) {
    fill_package_in(t, whole, n, inside, n);
}

static void begin_case(struct one_case *c, enum call call, size_t room) {
    c->call = call;
    c->kind = 0;
    c->id = 1;
    c->limit = UINT64_MAX;
    c->position = 0;
    c->named = c->number = 0;
    c->guid[0] = 0x5E; /* that of the serial numbers of plain elements */
    c->guid[1] = 0;
    c->room = room;
    c->offered = 0;
    c->new_room = 0;
    c->report = 24;
    text_clear(&c->first);
    text_clear(&c->second);
}

/* Stores of one element and of 256, each with outputs that hold all, one byte less, and little. */
static void large_stores(struct one_case *c, void (*run)(const struct one_case *)) {
    unsigned n, longer;
    for (n = 1; n <= 256; n += 255) {
        for (longer = 0; longer < 2; longer++) {
            begin_case(c, WRITE, LARGEST_CASE);
            fill_package(&c->first, LONGEST + longer, n, 65000);
            plain_request(&c->second, 0, NULL);
            run(c);
            c->room = room_needed(c);
            run(c);
            c->room = c->room > 0 ? c->room - 1 : 0;
            run(c);
            c->room = LONGEST - 66000;
            run(c);
            c->call = LENGTH;
            c->room = 0;
            c->offered = UINT64_MAX;
            run(c);
            c->call = FIND;
            c->position = n - 1;
            text_clear(&c->second);
            run(c);
            c->first.at[c->first.length - 1] ^= 4;
            run(c);
        }
    }
}

/* Stores of 256 elements in one group and in two under a limit of one byte, and in 128 under none: with outputs that hold all, as
   much as the first group needs, and one byte less. */
static void large_groups(struct one_case *c, void (*run)(const struct one_case *)) {
    static const unsigned groups[] = {1, 2, 128};
    struct text limit = {0};
    unsigned i;
    plain_start(&limit, 0x59, 0, 1);
    plain_compact(&limit, 1);
    for (i = 0; i < 3; i++) {
        begin_case(c, WRITE, LARGEST_CASE);
        fill_package_in(&c->first, LONGEST, 256, 65000, groups[i]);
        plain_request(&c->second, 0, i == 2 ? NULL : &limit);
        run(c);
        c->room = room_needed(c);
        run(c);
        c->room--;
        run(c);
    }
    text_free(&limit);
}

/* A run of as many tiny objects as there is room for. */
static void many_objects(struct one_case *c, void (*run)(const struct one_case *)) {
    begin_case(c, WRITE, 4096);
    plain_start(&c->first, 0x15, 1, 1);
    text_byte(&c->first, 0);
    plain_element(&c->first, 1, 5, 0);
    c->first.length--;
    while (c->first.length < LONGEST - 4) {
        plain_start(&c->first, 1, 0, 0);
    }
    plain_end(&c->first, 0x01);
    plain_end(&c->first, 0x15);
    plain_request(&c->second, 0, NULL);
    run(c);
    c->first.length--;
    run(c);
    c->first.at[c->first.length / 2] ^= 1;
    run(c);
}

/* Requests with a long user agent, with a long package, and one byte longer. */
static void large_requests(struct one_case *c, void (*run)(const struct one_case *)) {
    unsigned longer;
    for (longer = 0; longer < 2; longer++) {
        struct text small = {0};
        begin_case(c, WRITE, 4096);
        plain_start(&c->first, 0x15, 1, 1);
        text_byte(&c->first, 0);
        plain_element(&c->first, 1, 1, 0);
        plain_end(&c->first, 0x15);
        plain_request(&small, 0, NULL);
        plain_request(&c->second, data_in(LONGEST + longer - small.length), NULL);
        hold_length(&c->second, LONGEST + longer);
        run(c);
        c->second.length--;
        run(c);
        c->second.length++;
        c->first.length--; /* the store's fault comes before the request's length */
        run(c);
        text_free(&small);
    }
}

/* A knowledge of another kind that is so long. */
static void other_knowledge(struct text *t, size_t whole) {
    static const uint8_t front[] = {0x84, 0x00, 0x26, 0x02, 0x20, 0x00};
    static const uint8_t ends[] = {0x13, 0x01, 0x41};
    text_add(t, front, sizeof front);
    text_like(t, 16, 0x99);
    plain_start(t, 0x1D, 0, data_in(whole - 25));
    text_like(t, data_in(whole - 25), 0x77);
    text_add(t, ends, sizeof ends);
    hold_length(t, whole);
}

/* Requests that would be of the greatest length, and longer. */
static void large_asks(struct one_case *c, void (*run)(const struct one_case *)) {
    size_t longer;
    for (longer = 0; longer < 3; longer++) {
        begin_case(c, ASK, LONGEST);
        other_knowledge(&c->second, LONGEST - 46 + longer);
        run(c);
        c->room = 45;
        run(c);
        text_byte(&c->second, 0);
        run(c);
    }
    begin_case(c, ASK, 100);
    text_like(&c->first, LONGEST + 1, 0);
    run(c);
    c->first.length--;
    run(c);
    begin_case(c, ASK, 100);
    other_knowledge(&c->second, LONGEST);
    run(c);
    text_byte(&c->second, 0);
    run(c);
    text_byte(&c->first, 0x3E);
    run(c);
}

/* New stores of the greatest length and one byte longer: a full store of which the put replaces the first element, by one of so
   many bytes more. Both buffers exact, and each one byte too short. */
static void large_new_stores(struct one_case *c, void (*run)(const struct one_case *)) {
    static const struct made_name index = {{0x1D}, 255}; /* of the last element */
    size_t longer;
    begin_case(c, PUT, LARGEST_CASE);
    fill_package(&c->first, LONGEST, 256, 65000);
    for (longer = 0; longer < 2; longer++) {
        struct text element = {0};
        text_clear(&c->second);
        plain_element(&element, 0, 5, 65000 + longer);
        plain_put(&c->second, &index, &element);
        text_free(&element);
        c->report = 32;
        c->new_room = LARGEST_CASE;
        run(c);
        c->room = room_needed(c);
        c->new_room = new_room_needed(c);
        run(c);
        c->room = c->room > 0 ? c->room - 1 : 0;
        run(c);
        c->new_room = c->new_room > 0 ? c->new_room - 1 : 0;
        run(c);
    }
}

/* One element that takes so many bytes. */
static void fill_element(struct text *t, size_t whole) {
    struct text small = {0};
    plain_element(&small, 1, 5, 0);
    plain_element(t, 1, 5, data_in(whole - small.length));
    hold_length(t, whole);
    text_free(&small);
}

/* Puts of the greatest length and one byte longer, whole and cut, into an empty store. */
static void large_puts(struct one_case *c, void (*run)(const struct one_case *)) {
    static const struct text none;
    struct text small = {0}, element = {0};
    unsigned longer;
    plain_put(&small, NULL, &none);
    for (longer = 0; longer < 2; longer++) {
        begin_case(c, PUT, 4096);
        plain_start(&c->first, 0x15, 1, 1);
        text_byte(&c->first, 0);
        plain_end(&c->first, 0x15);
        text_clear(&element);
        fill_element(&element, LONGEST + longer - small.length);
        plain_put(&c->second, NULL, &element);
        hold_length(&c->second, LONGEST + longer);
        c->new_room = LONGEST;
        run(c);
        c->second.length--;
        run(c);
    }
    text_free(&small);
    text_free(&element);
}

/* Puts that would be of the greatest length, and longer; elements that are too long by themselves. */
static void large_put_asks(struct one_case *c, void (*run)(const struct one_case *)) {
    unsigned longer;
    for (longer = 0; longer < 2; longer++) {
        begin_case(c, ASK_PUT, LONGEST);
        fill_element(&c->first, LONGEST - 44 + longer); /* around no elements a put has 44 bytes */
        run(c);
        c->room = 44;
        run(c);
        begin_case(c, ASK_PUT, 100);
        fill_element(&c->first, LONGEST + longer);
        run(c);
    }
}

/* With room for all, exactly what is needed, and one byte less. */
static void run_rooms(struct one_case *c, void (*run)(const struct one_case *)) {
    c->room = LARGEST_CASE;
    run(c);
    c->room = room_needed(c);
    run(c);
    c->room = c->room > 0 ? c->room - 1 : 0;
    run(c);
}

/* New books of the greatest length and one byte longer: of a full book whose first element an answer replaces, by one of so many
   bytes more; and of an empty book and all that came. */
static void large_new_books(struct one_case *c, void (*run)(const struct one_case *)) {
    struct text package = {0};
    size_t longer;
    for (longer = 0; longer < 2; longer++) {
        begin_case(c, KEEP, 0);
        fill_package(&c->first, LONGEST, 256, 65000);
        text_clear(&package);
        plain_start(&package, 0x15, 1, 1);
        text_byte(&package, 0);
        plain_element(&package, 0, 5, 65000 + longer);
        plain_end(&package, 0x15);
        plain_answer(&c->second, &package);
        run_rooms(c, run);
        begin_case(c, KEEP, 0);
        plain_start(&c->first, 0x15, 1, 1);
        text_byte(&c->first, 0);
        plain_end(&c->first, 0x15);
        text_clear(&package);
        fill_package_in(&package, LONGEST + longer, 256, 65000, 2);
        plain_answer(&c->second, &package);
        run_rooms(c, run);
    }
    text_free(&package);
}

/* A book, and an answer, of the greatest length that is read and one byte longer. */
static void large_kept(struct one_case *c, void (*run)(const struct one_case *)) {
    static const struct text none;
    struct text around = {0}, package = {0};
    unsigned longer;
    plain_answer(&around, &none);
    for (longer = 0; longer < 2; longer++) {
        begin_case(c, KEEP, LARGEST_CASE);
        fill_package(&c->first, LONGEST + longer, 1, 0);
        text_clear(&package);
        fill_package(&package, LONGEST_ANSWER + longer - around.length, 40, 400000);
        plain_answer(&c->second, &package);
        run(c);
        c->first.length = 4;
        c->first.at[3] = 0x55;
        run(c);
        c->second.length--;
        run(c);
    }
    text_free(&around);
    text_free(&package);
}

/* One answer that is read, one of its elements, and the answer without its last byte. */
static void run_answer(struct one_case *c, enum call call, void (*run)(const struct one_case *)) {
    run(c);
    c->call = FIND;
    c->kind = 1;
    c->position = 39;
    run(c);
    c->call = call;
    c->first.length--;
    run(c);
}

/* Answers of the greatest length that is read, and one byte longer: to a request, or to a put. */
static void large_answers(struct one_case *c, enum call call, void (*plain)(struct text *, const struct text *),
                          void (*run)(const struct one_case *)) {
    static const struct text none;
    struct text around = {0}, package = {0};
    unsigned longer;
    plain(&around, &none);
    for (longer = 0; longer < 2; longer++) {
        begin_case(c, call, 0);
        text_clear(&package);
        fill_package(&package, LONGEST_ANSWER + longer - around.length, 40, 400000);
        plain(&c->first, &package);
        hold_length(&c->first, LONGEST_ANSWER + longer);
        c->report = 88;
        run_answer(c, call, run);
    }
    text_free(&around);
    text_free(&package);
}

void large_cases(void (*run)(const struct one_case *)) {
    struct one_case c;
    memset(&c, 0, sizeof c);
    large_stores(&c, run);
    large_groups(&c, run);
    many_objects(&c, run);
    large_requests(&c, run);
    large_asks(&c, run);
    large_answers(&c, READ, plain_answer, run);
    large_new_stores(&c, run);
    large_puts(&c, run);
    large_put_asks(&c, run);
    large_answers(&c, READ_PUT, plain_put_answer, run);
    large_new_books(&c, run);
    large_kept(&c, run);
    text_free(&c.first);
    text_free(&c.second);
}
