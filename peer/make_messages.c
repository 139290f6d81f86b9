/* Requests and answers, made of decisions; and plain ones, in the shortest form and never spoiled. In a request a padded number is
   a spoiled one, and in an answer it is none. */
#include "make_inner.h"

#include <string.h>

static void make_front(struct maker *m, struct text *t, uint64_t signature) {
    unsigned version = 12 + (unsigned)luck_below(&m->luck, 3), least = 11 + (unsigned)luck_below(&m->luck, 2);
    if (spoils(m)) {
        version = luck_one_in(&m->wrong, 2) ? 11 : (unsigned)luck_below(&m->wrong, 65536);
    }
    if (spoils(m)) {
        least = luck_one_in(&m->wrong, 2) ? 13 : (unsigned)luck_below(&m->wrong, 65536);
    }
    if (spoils(m)) {
        signature ^= (uint64_t)1 << luck_below(&m->wrong, 64);
    }
    text_little(t, version, 2);
    text_little(t, least, 2);
    text_little(t, signature, 8);
}

/* The type of a sub-request or a sub-response: 2 for a query, 5 for a put. */
static uint64_t request_type(struct maker *m, uint64_t right) {
    static const uint64_t others[] = {0, 1, 3, 2, 5, 11, 130, UINT64_MAX};
    return spoils(m) ? others[luck_below(&m->wrong, 8)] : right;
}

static void make_sub_request(struct maker *m, struct text *t, uint64_t type) {
    struct text data = {0};
    make_compact(m, &data, luck_number(&m->luck));
    make_compact(m, &data, request_type(m, type));
    make_compact(m, &data, luck_one_in(&m->luck, 2) ? 0 : luck_number(&m->luck));
    make_object(m, t, 0x42, 1, &data);
}

static void make_arguments(struct maker *m, struct text *t) {
    struct text byte = {0}, data = {0};
    struct made_name id = {{1}, 1};
    size_t from = t->length;
    unsigned i, flags = luck_one_in(&m->luck, 3) ? (unsigned)luck_below(&m->luck, 64) * 4 + 3 : 3;
    text_byte(&byte, (unsigned)luck_below(&m->luck, 256));
    make_object(m, t, 0x51, 0, &byte);
    part_made(m, t, from);
    from = t->length;
    text_byte(&data, spoils(m) ? (unsigned)luck_below(&m->wrong, 256) : flags);
    for (i = 0; i < 2; i++) {
        if (spoils(m)) {
            wrong_extended(m, &data, &id);
        } else {
            text_byte(&data, 0);
        }
    }
    make_object(m, t, 0x5B, 0, &data);
    part_made(m, t, from);
}

/* The length of the store's first few groups, or one more or less; or any number. */
static uint64_t some_limit(struct maker *m) {
    unsigned n = m->elements == 0 ? 0 : (unsigned)luck_below(&m->luck, m->elements < 5 ? m->elements + 1 : 6);
    uint64_t sum;
    if (luck_one_in(&m->luck, 3)) {
        return luck_number(&m->luck);
    }
    sum = made_groups_length(m, n);
    return sum + luck_below(&m->luck, 3) - (sum > 0);
}

static void make_constraint(struct maker *m, struct text *t) {
    struct text data = {0};
    make_compact(m, &data, some_limit(m));
    make_object(m, t, 0x59, 0, &data);
}

static void make_agent(struct maker *m, struct text *t) {
    struct text none = {0};
    size_t from = t->length;
    make_object(m, t, 0x5D, 1, &none);
    make_nested(m, t, 14);
    make_end(m, t, 0x5D);
    part_made(m, t, from);
}

/* Constraint, filters and knowledge; by a wrong decision in another order. */
static void make_optional(struct maker *m, struct text *t) {
    size_t from = t->length;
    if (luck_one_in(&m->luck, 2)) {
        make_constraint(m, t);
        part_made(m, t, from);
    }
    make_filters(m, t);
    from = t->length;
    if (!luck_one_in(&m->luck, 4)) {
        make_knowledge(m, t, 12);
        part_made(m, t, from);
    }
    if (spoils(m)) {
        switch (luck_below(&m->wrong, 3)) {
        case 0:
            make_constraint(m, t);
            break;
        case 1:
            make_filter(m, t);
            break;
        default:
            make_knowledge(m, t, 12);
            break;
        }
    }
}

static void make_request_package(struct maker *m, struct text *t) {
    struct text data = {0};
    size_t from = t->length;
    text_byte(&data, (unsigned)luck_below(&m->luck, 256));
    make_object(m, t, 0x15, 1, &data);
    make_nested(m, t, 14);
    make_end(m, t, 0x15);
    part_made(m, t, from);
}

void make_request_front(struct maker *m, struct text *t, uint64_t type) {
    struct text none = {0};
    make_front(m, t, 0x9B069439F329CF9Cu);
    make_object(m, t, 0x40, 1, &none);
    make_agent(m, t);
    make_sub_request(m, t, type);
}

void make_request(struct maker *m, struct text *t) {
    make_request_front(m, t, 2);
    make_arguments(m, t);
    make_optional(m, t);
    make_end(m, t, 0x42);
    if (luck_one_in(&m->luck, 4)) {
        make_request_package(m, t);
    }
    make_end(m, t, 0x40);
    make_last(m, t);
}

static void make_changes(struct maker *m, struct text *t) {
    struct text changes = {0};
    struct made_name index;
    size_t from = t->length;
    if (luck_one_in(&m->luck, 2)) {
        text_byte(&changes, 0);
    } else {
        some_guid(&m->luck, index.guid);
        index.number = luck_number(&m->luck) & UINT32_MAX;
        make_extended(m, &changes, &index);
    }
    text_byte(&changes, (unsigned)luck_below(&m->luck, 256));
    make_object(m, t, 0x5F, 0, &changes);
    part_made(m, t, from);
}

/* That a put is answered without 0x5F is a decision too. */
static void make_sub_response(struct maker *m, struct text *t, uint64_t type) {
    struct text data = {0};
    size_t from;
    make_compact(m, &data, luck_number(&m->luck));
    make_compact(m, &data, request_type(m, type));
    text_byte(&data, (unsigned)luck_below(&m->luck, 128) * 2 + (unsigned)spoils(m));
    make_object(m, t, 0x41, 1, &data);
    if (type == 2 || spoils(m)) {
        make_changes(m, t);
    }
    from = t->length;
    make_knowledge(m, t, 13);
    part_made(m, t, from);
    make_end(m, t, 0x41);
}

static void make_answer_to(struct maker *m, struct text *t, uint64_t type) {
    struct text data = {0};
    size_t from;
    m->pads = 1;
    make_front(m, t, 0x9B069439F329CF9Du);
    text_byte(&data, (unsigned)luck_below(&m->luck, 128) * 2 + (unsigned)spoils(m));
    make_object(m, t, 0x62, 1, &data);
    from = t->length;
    make_package(m, t);
    part_made(m, t, from);
    make_sub_response(m, t, type);
    make_end(m, t, 0x62);
    make_last(m, t);
    m->pads = 0;
}

void make_answer(struct maker *m, struct text *t) {
    make_answer_to(m, t, 2);
}

void make_put_answer(struct maker *m, struct text *t) {
    make_answer_to(m, t, 5);
}

/* ---- a knowledge that is full, or nearly */

/* One number as a range, as an entry, or a null entry instead of it. */
static void add_said(struct text *t, const struct made_name *serial, uint64_t form) {
    struct text data = {0};
    if (form == 0) {
        text_byte(&data, 0);
    } else if (form == 1) {
        serial_of(&data, serial);
    } else {
        text_add(&data, serial->guid, 16);
        plain_compact(&data, serial->number);
        plain_compact(&data, serial->number);
    }
    plain_start(t, form < 2 ? 0x17 : 0x0F, 0, data.length);
    text_add(t, data.at, data.length);
    text_free(&data);
}

/* The numbers 0, 2, 4 .. of one GUID: an odd one joins two ranges, or makes one longer at the end. If mixed, there are entries
   among them, also such that are null, and there may be one too many or two. */
static void full_knowledge(struct maker *m, struct text *t, const struct made_name *serial, unsigned n, int mixed) {
    static const uint8_t front[] = {0x26, 0x02, 0x20, 0x00, 0xF6, 0x35, 0x7A, 0x32, 0x61, 0x07, 0x14,
                                    0x44, 0x96, 0x86, 0x51, 0xE9, 0x00, 0x66, 0x7A, 0x4D, 0xA4, 0x00};
    static const uint8_t ends[] = {0x51, 0x13, 0x01};
    unsigned i, jump = (unsigned)luck_below(&m->luck, 2) * 198 + 1, first = (unsigned)luck_below(&m->luck, n);
    unsigned said = mixed ? 511 + (unsigned)luck_below(&m->luck, 4) : n, parted = (unsigned)luck_below(&m->luck, 2 * said);
    struct made_name one = *serial;
    plain_start(t, 0x10, 1, 0);
    text_add(t, front, sizeof front);
    for (i = 0; i < said; i++) {
        if (i == parted) { /* goes on in a second cell knowledge */
            text_add(t, ends, sizeof ends);
            text_add(t, front, sizeof front);
        }
        one.number = (first + (uint64_t)i * jump) % n * 2;
        add_said(t, &one, mixed ? luck_below(&m->luck, 6) : 2);
    }
    text_add(t, ends, sizeof ends);
    plain_end(t, 0x10);
}

/* A store whose serial numbers join ranges, make them longer, or are new; at times an element has that of the one before. */
void make_full(struct maker *m, struct text *store, struct text *request) {
    struct text parts = {0};
    struct made_name id = {{0x1D}, 0}, serial = {{0x77}, 0};
    unsigned i, n = (unsigned)luck_below(&m->luck, 8) + 1, ranges = 512 - (unsigned)luck_below(&m->luck, 3);
    uint64_t odd = luck_below(&m->luck, 2 * ranges);
    begin_types(m, n);
    plain_start(store, 0x15, 1, 1);
    text_byte(store, 0);
    for (i = 0; i < n; i++) {
        int joins = luck_one_in(&m->luck, 2), same = i > 0 && luck_one_in(&m->luck, 3);
        id.number = i;
        if (!same) {
            serial.guid[1] = joins ? 0 : 9;
            serial.number = joins ? (odd + 2 * i) % (2 * ranges) | 1 : 3 * i;
        }
        plain_start(store, 0x01, 1, 43);
        extended_of(store, &id, 0);
        serial_of(store, &serial);
        plain_compact(store, next_type(m) % 12); /* in one byte */
        plain_end(store, 0x01);
    }
    plain_end(store, 0x15);
    serial.guid[1] = 0;
    full_knowledge(m, &parts, &serial, ranges, luck_one_in(&m->luck, 2));
    plain_request(request, 0, &parts);
    text_free(&parts);
}

/* ---- as many elements as may be, or nearly */

/* 255 to 258 elements, whose names differ in few bits; at times one has the id of another. Each has a serial number of its own, or
   they have them by turns out of 128, three or two, or all have one; at times one stands apart. */
void make_many(struct maker *m, struct text *store) {
    static const uint64_t steps[] = {1, 2, 256, 4096, 65536}, groups[] = {300, 128, 3, 2, 1};
    uint64_t step = steps[luck_below(&m->luck, 5)], n = 255 + luck_below(&m->luck, 4), i;
    uint64_t twice = luck_one_in(&m->luck, 3) ? luck_below(&m->luck, n) : n;
    uint64_t turns = groups[luck_below(&m->luck, 5)], alone = luck_below(&m->luck, 2 * n);
    begin_types(m, (unsigned)n);
    plain_start(store, 0x15, 1, 1);
    text_byte(store, 0);
    for (i = 0; i < n; i++) {
        uint64_t id = i == twice ? luck_below(&m->luck, i + 1) : i;
        plain_element_under(store, id * step, (i == alone ? i : i % turns) * step, next_type(m), 0);
    }
    plain_end(store, 0x15);
}

/* Versions and the response's start, and a package. */
static void plain_answer_front(struct text *t, const struct text *package) {
    static const uint8_t front[] = {0x0C, 0x00, 0x0B, 0x00, 0x9D, 0xCF, 0x29, 0xF3, 0x39,
                                    0x94, 0x06, 0x9B, 0x16, 0x03, 0x02, 0x00, 0x00};
    text_add(t, front, sizeof front);
    text_add(t, package->at, package->length);
}

void plain_answer(struct text *t, const struct text *package) {
    static const uint8_t behind[] = {0x0E, 0x02, 0x06, 0x00, 0x03, 0x05, 0x00, 0xFA, 0x02, 0x04,
                                     0x00, 0x00, 0x01, 0x84, 0x00, 0x41, 0x07, 0x01, 0x8B, 0x01};
    plain_answer_front(t, package);
    text_add(t, behind, sizeof behind);
}

void plain_put_answer(struct text *t, const struct text *package) {
    static const uint8_t behind[] = {0x0E, 0x02, 0x06, 0x00, 0x03, 0x0B, 0x00, 0x84, 0x00, 0x41, 0x07, 0x01, 0x8B, 0x01};
    plain_answer_front(t, package);
    text_add(t, behind, sizeof behind);
}

/* ---- plain things */

void plain_element(struct text *t, uint64_t number, uint64_t type, size_t inside) {
    plain_element_under(t, number, number, type, inside);
}

void plain_element_under(struct text *t, uint64_t number, uint64_t serial, uint64_t type, size_t inside) {
    struct made_name id = {{0x1D}, 0}, given = {{0x5E}, 0};
    struct text data = {0};
    id.number = number;
    given.number = serial;
    extended_of(&data, &id, extended_form(number));
    serial_of(&data, &given);
    plain_compact(&data, type);
    plain_start(t, 0x01, 1, data.length);
    text_add(t, data.at, data.length);
    text_free(&data);
    if (inside > 0) {
        plain_start(t, 0x1D, 0, inside);
        text_like(t, inside, 0x77);
    }
    plain_end(t, 0x01);
}

void plain_request(struct text *t, size_t agent, const struct text *parts) {
    static const uint8_t before[] = {0x0C, 0x00, 0x0B, 0x00, 0x9C, 0xCF, 0x29, 0xF3, 0x39, 0x94,
                                     0x06, 0x9B, 0x06, 0x02, 0x00, 0x00, 0xEE, 0x02, 0x00, 0x00};
    static const uint8_t between[] = {0x77, 0x01, 0x16, 0x02, 0x06, 0x00, 0x03, 0x05, 0x00, 0x8A, 0x02,
                                      0x02, 0x00, 0x00, 0xDA, 0x02, 0x06, 0x00, 0x03, 0x00, 0x00};
    static const uint8_t ends[] = {0x0B, 0x01, 0x03, 0x01};
    text_add(t, before, sizeof before);
    if (agent > 0) {
        plain_start(t, 0x1D, 0, agent);
        text_like(t, agent, 0x77);
    }
    text_add(t, between, sizeof between);
    if (parts != NULL) {
        text_add(t, parts->at, parts->length);
    }
    text_add(t, ends, sizeof ends);
}
