/* Stores, filters and knowledges, made of decisions, in all forms that are taken: in a store numbers may be padded. */
#include "make_inner.h"

#include <string.h>

/* ---- stores */

int used(const struct made_name *names, unsigned count, const struct made_name *name) {
    unsigned i;
    for (i = 0; i < count; i++) {
        if (names[i].number == name->number && memcmp(names[i].guid, name->guid, 16) == 0) {
            return 1;
        }
    }
    return 0;
}

/* A name that differs from another in one bit. */
static void one_bit_other(struct luck *l, struct made_name *name, unsigned bits) {
    if (luck_one_in(l, 2)) {
        name->number ^= (uint64_t)1 << luck_below(l, bits);
    } else {
        name->guid[luck_below(l, 16)] ^= (uint8_t)(1u << luck_below(l, 8));
    }
}

/* A serial number, often beside one that was there before. */
void some_serial(struct maker *m, struct made_name *serial) {
    unsigned n = m->elements;
    if (n > 0 && !luck_one_in(&m->luck, 3)) {
        *serial = m->serials[luck_below(&m->luck, n)];
        if (luck_one_in(&m->luck, 6)) {
            one_bit_other(&m->luck, serial, 64);
        } else {
            serial->number += luck_below(&m->luck, 5) - 2;
        }
    } else {
        some_guid(&m->luck, serial->guid);
        serial->number = luck_one_in(&m->luck, 2) ? luck_below(&m->luck, 30) : luck_number(&m->luck);
        serial->number = m->high ? UINT64_MAX - serial->number % 8 : serial->number;
    }
}

/* A new id for the next element, and a serial number, which others may have too. */
static void new_names(struct maker *m) {
    struct made_name *id = &m->ids[m->elements];
    do {
        if (m->booked > 0 && luck_one_in(&m->luck, 2)) {
            *id = m->book[luck_below(&m->luck, m->booked)];
        } else if (m->elements > 0 && luck_one_in(&m->luck, 5)) {
            *id = m->ids[luck_below(&m->luck, m->elements)];
            one_bit_other(&m->luck, id, 32);
        } else {
            some_guid(&m->luck, id->guid);
            id->number = m->scale == 2 ? m->elements + 20 : luck_number(&m->luck) & UINT32_MAX;
        }
    } while (used(m->ids, m->elements, id));
    next_serial(m, &m->serials[m->elements]);
    m->types[m->elements] = next_type(m);
}

size_t make_named(struct maker *m, struct text *t, const struct made_name *id, const struct made_name *serial, uint64_t type,
                  unsigned levels) {
    struct text data = {0};
    size_t inside;
    make_extended(m, &data, id);
    if (serial == NULL) {
        text_byte(&data, 0);
    } else {
        make_serial(m, &data, serial);
    }
    make_compact(m, &data, type);
    make_object(m, t, 0x01, 1, &data);
    inside = t->length;
    make_nested(m, t, levels);
    make_end(m, t, 0x01);
    return inside;
}

static void make_element(struct maker *m, struct text *t) {
    unsigned i = m->elements;
    m->places[i] = t->length;
    new_names(m);
    if (spoils(m) && i > 0) { /* seen before */
        m->ids[i] = m->ids[luck_below(&m->wrong, i)];
    }
    make_named(m, t, &m->ids[i], &m->serials[i], m->types[i], 14);
    m->lengths[i] = t->length - m->places[i];
    m->elements++;
}

void make_package(struct maker *m, struct text *t) {
    unsigned n = (unsigned)luck_below(&m->luck, 5);
    struct text data = {0};
    m->elements = 0;
    if (m->scale > 0) {
        n = (unsigned)(m->scale == 1 ? luck_below(&m->luck, 30) : luck_one_in(&m->luck, 2) ? 256 - luck_below(&m->luck, 2) : 9);
    }
    if (spoils(m) && m->scale == 2) {
        n++;
    }
    begin_types(m, n);
    begin_serials(m, n);
    text_byte(&data, luck_one_in(&m->luck, 3) ? (unsigned)luck_below(&m->luck, 256) : 0);
    make_object(m, t, 0x15, 1, &data);
    for (; n > 0; n--) {
        size_t from = t->length;
        make_element(m, t);
        part_made(m, t, from);
    }
    make_end(m, t, 0x15);
}

/* A byte or a few behind the last end. */
void make_last(struct maker *m, struct text *t) {
    if (spoils(m)) {
        text_like(t, 1 + (size_t)luck_below(&m->wrong, 3), (unsigned)luck_below(&m->wrong, 256));
    }
}

void make_store(struct maker *m, struct text *t) {
    size_t from = t->length;
    m->pads = 1;
    make_package(m, t);
    part_made(m, t, from);
    make_last(m, t);
    m->pads = 0;
}

/* ---- filters */

/* An id of the store, or any. */
void some_id(struct maker *m, struct made_name *id, int stored) {
    if (stored) {
        *id = m->ids[luck_below(&m->luck, m->elements)];
    } else {
        some_guid(&m->luck, id->guid);
        id->number = luck_number(&m->luck) & UINT32_MAX;
    }
}

static void make_ids(struct maker *m, struct text *data, struct made_filter *f) {
    unsigned n = (unsigned)luck_below(&m->luck, 5);
    if (m->scale > 0 && luck_one_in(&m->luck, 3)) {
        n = 64;
    }
    if (spoils(m)) {
        n += m->scale > 0 ? 1 : 62;
    }
    make_compact(m, data, n);
    for (; n > 0; n--) {
        uint64_t which = luck_below(&m->luck, m->elements > 0 ? 4 : 2);
        if (which == 0) {
            text_byte(data, 0);
            continue;
        }
        some_id(m, &f->ids[f->count], which > 1);
        make_extended(m, data, &f->ids[f->count]);
        f->count++;
    }
}

/* A filter's start, with its kind and its operation. */
static struct made_filter *begin_filter(struct maker *m, struct text *t, unsigned kind, unsigned operation) {
    struct text data = {0};
    struct made_filter *f = &m->filter[m->filters < MOST_MADE_FILTERS - 1 ? m->filters++ : MOST_MADE_FILTERS - 1];
    int other_kind = spoils(m), other_operation = spoils(m);
    f->kind = kind;
    f->operation = operation;
    f->count = 0;
    text_byte(&data, other_kind ? (unsigned)luck_below(&m->wrong, 9) : kind);
    text_byte(&data, other_operation ? (unsigned)luck_below(&m->wrong, 256) : operation);
    make_object(m, t, 0x47, 1, &data);
    return f;
}

void make_filter(struct maker *m, struct text *t) {
    static const unsigned kinds[] = {1, 2, 2, 6, 6};
    unsigned kind = kinds[luck_below(&m->luck, 5)], operation = (unsigned)luck_below(&m->luck, 2);
    struct made_filter *f = begin_filter(m, t, kind, operation);
    struct text inner = {0};
    if (kind == 2) {
        f->type = m->elements > 0 && !luck_one_in(&m->luck, 4) ? m->types[luck_below(&m->luck, m->elements)]
                                                               : luck_number(&m->luck);
        make_compact(m, &inner, f->type);
        make_object(m, t, 0x57, 0, &inner);
    } else if (kind == 6) {
        make_ids(m, &inner, f);
        make_object(m, t, 0x54, 0, &inner);
    }
    make_end(m, t, 0x47);
}

/* All are put out, and one is let in again, or the other way: of a group the first member, the last or any between. */
static void make_filters_for_one(struct maker *m, struct text *t) {
    unsigned operation = luck_one_in(&m->luck, 4);
    struct made_filter *f;
    struct text inner = {0};
    begin_filter(m, t, 1, operation);
    make_end(m, t, 0x47);
    f = begin_filter(m, t, 6, !operation);
    make_compact(m, &inner, 1);
    some_id(m, &f->ids[f->count], 1);
    make_extended(m, &inner, &f->ids[f->count]);
    f->count++;
    make_object(m, t, 0x54, 0, &inner);
    make_end(m, t, 0x47);
}

void make_filters(struct maker *m, struct text *t) {
    unsigned n = (unsigned)(luck_one_in(&m->luck, 2) ? 0 : luck_below(&m->luck, 4));
    if (m->scale > 0 && luck_one_in(&m->luck, 3)) {
        n = 16;
    }
    if (spoils(m)) {
        n += m->scale > 0 ? 1 : 15;
    }
    m->filters = 0;
    if (m->elements > 0 && n == 0 && luck_one_in(&m->luck, 3)) {
        make_filters_for_one(m, t);
    }
    for (; n > 0; n--) {
        size_t from = t->length;
        make_filter(m, t);
        part_made(m, t, from);
    }
}

/* ---- knowledge */

/* Keeps what a knowledge says, as far as there is room: more is said only by a wrong decision. */
static void keep_range(struct maker *m, const uint8_t *guid, uint64_t from, uint64_t to) {
    if (m->ranges < MOST_MADE_RANGES) {
        struct made_range *r = &m->range[m->ranges++];
        memcpy(r->guid, guid, 16);
        r->from = from;
        r->to = to;
    }
}

/* A range about a serial number of the store, or about any. */
static void make_range(struct maker *m, struct text *t) {
    struct made_name from;
    struct text data = {0};
    uint64_t more = luck_one_in(&m->luck, 8) ? luck_number(&m->luck) : luck_below(&m->luck, 5);
    if (m->scale == 2) { /* such that seldom touch, so that there are many */
        some_guid(&m->luck, from.guid);
        from.number = luck_below(&m->luck, 4000);
        more = 0;
    } else {
        some_serial(m, &from);
    }
    more = more > UINT64_MAX - from.number ? UINT64_MAX - from.number : more;
    keep_range(m, from.guid, from.number, from.number + more);
    if (spoils(m) && from.number > 0) {
        more = UINT64_MAX;
    }
    text_add(&data, from.guid, 16);
    make_compact(m, &data, from.number);
    make_compact(m, &data, from.number + more);
    make_object(m, t, 0x0F, 0, &data);
}

static void make_entry(struct maker *m, struct text *t) {
    struct made_name serial;
    struct text data = {0};
    some_serial(m, &serial);
    if (luck_one_in(&m->luck, 4)) {
        text_byte(&data, 0);
    } else {
        keep_range(m, serial.guid, serial.number, serial.number);
        make_serial(m, &data, &serial);
    }
    make_object(m, t, 0x17, 0, &data);
}

static void make_cells(struct maker *m, struct text *t) {
    unsigned n = (unsigned)luck_below(&m->luck, 4);
    size_t from = t->length;
    struct text none = {0};
    if (m->scale > 0) {
        n = (unsigned)luck_below(&m->luck, m->scale == 1 ? 60 : 520);
    }
    n = n > 512 - m->said ? 512 - m->said : n;
    make_object(m, t, 0x14, 1, &none);
    if (spoils(m) && m->scale == 2) {
        n = 513 - m->said;
    }
    for (; n > 0; n--, m->said++) {
        size_t front = t->length;
        if (luck_one_in(&m->luck, 3)) {
            make_entry(m, t);
        } else {
            make_range(m, t);
        }
        part_made(m, t, front);
    }
    make_end(m, t, 0x14);
    part_made(m, t, from);
}

static void make_specialized(struct maker *m, struct text *t, unsigned levels) {
    static const uint8_t cell[16] = {0xF6, 0x35, 0x7A, 0x32, 0x61, 0x07, 0x14, 0x44,
                                     0x96, 0x86, 0x51, 0xE9, 0x00, 0x66, 0x7A, 0x4D};
    static const uint8_t waterline[16] = {0x0E, 0xE9, 0x76, 0x3A, 0x32, 0x80, 0x0C, 0x4D,
                                          0xB9, 0xDD, 0xF3, 0xC6, 0x50, 0x29, 0x43, 0x3E};
    struct text data = {0};
    int other = luck_one_in(&m->luck, 4);
    text_add(&data, other ? waterline : cell, 16);
    if (spoils(m)) {
        data.at[luck_below(&m->wrong, 16)] ^= (uint8_t)(1u << luck_below(&m->wrong, 8));
    }
    make_object(m, t, 0x44, 1, &data);
    if (other) {
        make_nested(m, t, levels);
    } else {
        make_cells(m, t);
    }
    make_end(m, t, 0x44);
}

void make_knowledge(struct maker *m, struct text *t, unsigned levels) {
    unsigned n = (unsigned)luck_below(&m->luck, 4);
    struct text none = {0};
    n = n == 3 && luck_one_in(&m->luck, 2) ? 1 : n;
    m->said = m->ranges = 0;
    make_object(m, t, 0x10, 1, &none);
    for (; n > 0; n--) {
        size_t from = t->length;
        make_specialized(m, t, levels);
        part_made(m, t, from);
    }
    make_end(m, t, 0x10);
}
