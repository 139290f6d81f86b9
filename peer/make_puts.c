/* Puts, made of decisions; and plain ones, in the shortest form and never spoiled. In a put a padded number is a spoiled one, and a
   serial number may be anything. */
#include "make_inner.h"

#include <string.h>

/* ---- elements that are handed in */

/* An id of the store, to replace the element that has it, or any; none twice. */
static void entering_id(struct maker *m, struct made_name *id) {
    do {
        some_id(m, id, m->elements > 0 && luck_one_in(&m->luck, 2));
    } while (used(m->entering.ids, m->entering.count, id));
}

/* Its serial number is ignored, and so at times null, one of the store's, or that of another that is handed in. */
static void make_entering(struct maker *m, struct text *t) {
    struct made_entering *e = &m->entering;
    struct made_name serial;
    unsigned i = e->count;
    int null = luck_one_in(&m->luck, 4);
    entering_id(m, &e->ids[i]);
    some_serial(m, &serial);
    e->types[i] = element_type(m);
    if (spoils(m) && i > 0) { /* seen before */
        e->ids[i] = e->ids[luck_below(&m->wrong, i)];
    }
    e->insides[i] = make_named(m, t, &e->ids[i], null ? NULL : &serial, e->types[i], 13);
    e->lengths[i] = t->length - e->insides[i];
    e->count++;
}

void make_elements(struct maker *m, struct text *t) {
    unsigned n = (unsigned)luck_below(&m->luck, 4);
    m->entering.count = 0;
    if (m->scale > 0) {
        n = (unsigned)(m->scale == 1 ? luck_below(&m->luck, 30) : luck_one_in(&m->luck, 2) ? 256 - luck_below(&m->luck, 2) : 9);
    }
    if (spoils(m) && m->scale == 2) {
        n++;
    }
    for (; n > 0; n--) {
        size_t from = t->length;
        make_entering(m, t);
        part_made(m, t, from);
    }
}

/* ---- a put */

unsigned made_index(const struct maker *m) {
    unsigned i = 0;
    while (i < m->elements && m->types[i] != 1) {
        i++;
    }
    return i;
}

/* Null, an id of any element or one beside it, or any at all. */
static void other_index(struct maker *m, struct text *data) {
    uint64_t which = luck_below(&m->wrong, 4);
    struct made_name other;
    some_guid(&m->wrong, other.guid);
    other.number = luck_number(&m->wrong) & UINT32_MAX;
    if (which > 1 && m->elements > 0) {
        other = m->ids[luck_below(&m->wrong, m->elements)];
        other.number ^= which == 3;
    }
    if (which == 0) {
        text_byte(data, 0);
    } else {
        extended_of(data, &other, extended_form(other.number));
    }
}

/* The storage index of the store, or null if it has none; by a wrong decision another, and at times by itself, as one in so many
   decisions is seldom the wrong one. */
static void make_expected(struct maker *m, struct text *data) {
    unsigned i = made_index(m);
    int other = luck_one_in(&m->luck, 16);
    if (spoils(m) || other) {
        other_index(m, data);
    } else if (i == m->elements) {
        text_byte(data, 0);
    } else {
        make_extended(m, data, &m->ids[i]);
    }
}

/* The storage index that the put brings is not used, and so is null, one of the store's, or any. */
static void make_indexes(struct maker *m, struct text *t) {
    struct text data = {0};
    struct made_name brought;
    size_t from = t->length;
    if (luck_one_in(&m->luck, 2)) {
        text_byte(&data, 0);
    } else {
        some_id(m, &brought, m->elements > 0 && luck_one_in(&m->luck, 2));
        make_extended(m, &data, &brought);
    }
    make_expected(m, &data);
    text_byte(&data, (unsigned)luck_below(&m->luck, 256));
    make_object(m, t, 0x5A, 0, &data);
    part_made(m, t, from);
}

/* One of what may stand behind 0x5A: additional flags, lock id, knowledge, diagnostic input. */
static void make_behind(struct maker *m, struct text *t, unsigned which) {
    static const unsigned types[] = {0x86, 0x85, 0x10, 0x8A}, lengths[] = {2, 16, 0, 1};
    struct text data = {0};
    if (which == 2) {
        make_knowledge(m, t, 12);
        return;
    }
    text_like(&data, lengths[which], (unsigned)luck_below(&m->luck, 256));
    if (which == 0) {
        make_compact(m, &data, luck_one_in(&m->luck, 2) ? 0 : luck_number(&m->luck));
    }
    make_object(m, t, types[which], 0, &data);
}

/* All of these or some, in their order; by a wrong decision one more behind them. */
static void make_rest(struct maker *m, struct text *t) {
    unsigned which;
    for (which = 0; which < 4; which++) {
        size_t from = t->length;
        if (luck_one_in(&m->luck, 4)) {
            make_behind(m, t, which);
            part_made(m, t, from);
        }
    }
    if (spoils(m)) {
        make_behind(m, t, (unsigned)luck_below(&m->wrong, 4));
    }
}

void make_put(struct maker *m, struct text *t) {
    struct text data = {0};
    size_t from;
    m->entering.count = 0;
    make_request_front(m, t, 5);
    make_indexes(m, t);
    make_rest(m, t);
    make_end(m, t, 0x42);
    if (!luck_one_in(&m->luck, 8)) {
        from = t->length;
        text_byte(&data, (unsigned)luck_below(&m->luck, 256));
        make_object(m, t, 0x15, 1, &data);
        make_elements(m, t);
        make_end(m, t, 0x15);
        part_made(m, t, from);
    }
    make_end(m, t, 0x40);
    make_last(m, t);
}

/* The GUID of one of the store's serial numbers, of the highest of all, or any. */
void make_hub(struct maker *m, uint8_t *guid) {
    unsigned i, chosen = 0;
    some_guid(&m->luck, guid);
    if (m->elements == 0 || luck_one_in(&m->luck, 4)) {
        return;
    }
    chosen = (unsigned)luck_below(&m->luck, m->elements);
    if (luck_one_in(&m->luck, 2)) {
        for (i = 0; i < m->elements; i++) {
            chosen = m->serials[i].number > m->serials[chosen].number ? i : chosen;
        }
    }
    memcpy(guid, m->serials[chosen].guid, 16);
}

/* ---- plain puts */

void plain_put(struct text *t, const struct made_name *expected, const struct text *elements) {
    static const uint8_t front[] = {0x0C, 0x00, 0x0B, 0x00, 0x9C, 0xCF, 0x29, 0xF3, 0x39, 0x94, 0x06, 0x9B, 0x06, 0x02, 0x00,
                                    0x00, 0xEE, 0x02, 0x00, 0x00, 0x77, 0x01, 0x16, 0x02, 0x06, 0x00, 0x03, 0x0B, 0x00};
    static const uint8_t between[] = {0x0B, 0x01, 0xAC, 0x02, 0x00};
    static const uint8_t ends[] = {0x55, 0x03, 0x01};
    struct text data = {0};
    text_add(t, front, sizeof front);
    text_byte(&data, 0);
    if (expected == NULL) {
        text_byte(&data, 0);
    } else {
        extended_of(&data, expected, extended_form(expected->number));
    }
    text_byte(&data, 0);
    plain_start(t, 0x5A, 0, data.length);
    text_add(t, data.at, data.length);
    text_free(&data);
    text_add(t, between, sizeof between);
    text_add(t, elements->at, elements->length);
    text_add(t, ends, sizeof ends);
}

void add_plain(struct text *t, unsigned from, unsigned to, uint64_t type, unsigned sharing, uint64_t serial) {
    unsigned i;
    for (i = from; i < to; i++) {
        plain_element_under(t, i, i == (from + to) / 2 ? serial : i / sharing, i == from ? type : 5, 0);
    }
}

/* The ids of the put go on where those of the store end, or begin among them. Numbers may be left for all that enter or not, and
   the storage index may be another than the put expects: so each of the three refusals comes with each other. */
void make_many_put(struct maker *m, struct text *store, struct text *put, uint8_t *guid) {
    static const struct made_name first = {{0x1D}, 0};
    struct text elements = {0};
    unsigned whole = 255 + (unsigned)luck_below(&m->luck, 4), from = (unsigned)luck_below(&m->luck, whole);
    unsigned stored = from + (unsigned)luck_below(&m->luck, 3), index = (unsigned)luck_below(&m->luck, 2);
    unsigned sharing = luck_one_in(&m->luck, 2) ? 1 : 2 + (unsigned)luck_below(&m->luck, 300);
    uint64_t high = luck_one_in(&m->luck, 2) ? UINT64_MAX - luck_below(&m->luck, whole) : stored;
    int expects = luck_one_in(&m->luck, 4) ? (int)luck_below(&m->luck, 2) : index && stored > 0;
    plain_start(store, 0x15, 1, 1);
    text_byte(store, 0);
    add_plain(store, 0, stored < 256 ? stored : 256, index ? 1 : 5, sharing, high);
    plain_end(store, 0x15);
    add_plain(&elements, from, whole, 5, 1, 0);
    plain_put(put, expects ? &first : NULL, &elements);
    text_free(&elements);
    memset(guid, 0, 16);
    guid[0] = luck_one_in(&m->luck, 4) ? 0x60 : 0x5E; /* that of the serial numbers of plain elements, or another */
}
