/* Items of which layouts are made: numbers, names, headers, objects that are only nested; each right, or spoiled. */
#include "make_inner.h"

#include <string.h>

void begin_making(struct maker *m, uint64_t seed, uint32_t spoiled) {
    m->decisions = 0;
    m->elements = m->filters = m->said = m->ranges = m->entering.count = m->booked = 0;
    m->luck = luck_from(seed);
    m->wrong = luck_from(seed ^ 0x5BD1E9955BD1E995u ^ spoiled);
    m->spoiled = spoiled;
    m->scale = luck_one_in(&m->luck, 400) ? 2 : luck_one_in(&m->luck, 12) ? 1 : 0;
    m->pads = m->high = 0;
}

/* A decision: whether it is the one that is spoiled. */
int spoils(struct maker *m) {
    return m->decisions++ == m->spoiled;
}

static void any_byte(struct luck *l, struct text *t) {
    text_byte(t, (unsigned)luck_below(l, 256));
}

/* ---- numbers and names */

static void compact_of(struct text *t, uint64_t x, unsigned n) {
    if (n == 9) {
        text_byte(t, 128);
        text_little(t, x, 8);
    } else {
        text_little(t, x << n | (uint64_t)1 << (n - 1), n);
    }
}

static unsigned bytes_for(uint64_t x) {
    unsigned n = 1;
    while (n < 8 && x >> 7 * n != 0) {
        n++;
    }
    return n == 8 ? 9 : n;
}

void plain_compact(struct text *t, uint64_t x) {
    if (x == 0) {
        text_byte(t, 0);
    } else {
        compact_of(t, x, bytes_for(x));
    }
}

/* In one of the forms longer than its own, each as often; as it is where there is none. Of one byte 0 has two. */
static void padded_compact(struct luck *l, struct text *t, uint64_t x) {
    unsigned n = x == 0 ? 0 : bytes_for(x);
    if (n < 9) {
        n += 1 + (unsigned)luck_below(l, 8 - n);
        n = n == 8 ? 9 : n;
    }
    compact_of(t, x, n);
}

/* In a longer form, if there is one; another number; one byte, which is a number or begins one that takes in what follows; or
   none. */
static void wrong_compact(struct maker *m, struct text *t, uint64_t x) {
    unsigned n = bytes_for(x);
    switch (luck_below(&m->wrong, 7)) {
    case 0:
        compact_of(t, x, n < 7 ? n + 1 : 9);
        break;
    case 1:
        compact_of(t, x, 9);
        break;
    case 2:
        plain_compact(t, x + 1);
        break;
    case 3:
        plain_compact(t, luck_number(&m->wrong));
        break;
    case 4:
        text_byte(t, 1u << luck_below(&m->wrong, 8));
        break;
    case 5:
        any_byte(&m->wrong, t);
        break;
    default:
        break;
    }
}

/* A decision of its own where padding is wrong: that the next number, or a true length behind the next start, is not padded. */
static int pads_wrongly(struct maker *m) {
    return !m->pads && spoils(m);
}

void make_compact(struct maker *m, struct text *t, uint64_t x) {
    if (spoils(m)) {
        wrong_compact(m, t, x);
    } else if (pads_wrongly(m)) {
        padded_compact(&m->wrong, t, x);
    } else if (m->pads && luck_one_in(&m->luck, 4)) {
        padded_compact(&m->luck, t, x);
    } else {
        plain_compact(t, x);
    }
}

void extended_of(struct text *t, const struct made_name *id, unsigned form) {
    static const unsigned low[] = {3, 6, 7}, mark[] = {4, 32, 64};
    if (form == 3) {
        text_byte(t, 128);
        text_add(t, id->guid, 16);
        text_little(t, id->number, 4);
    } else {
        text_little(t, id->number << low[form] | mark[form], form + 1);
        text_add(t, id->guid, 16);
    }
}

unsigned extended_form(uint64_t number) {
    return number < 0x20 ? 0 : number < 0x400 ? 1 : number < 0x20000 ? 2 : 3;
}

void wrong_extended(struct maker *m, struct text *t, const struct made_name *id) {
    unsigned form = extended_form(id->number);
    switch (luck_below(&m->wrong, 5)) {
    case 0:
        text_byte(t, 0);
        break;
    case 1:
        extended_of(t, id, form < 3 ? form + 1 : 3);
        break;
    case 2:
        extended_of(t, id, (unsigned)luck_below(&m->wrong, 4));
        break;
    case 3:
        any_byte(&m->wrong, t);
        text_add(t, id->guid, (size_t)luck_below(&m->wrong, 17));
        break;
    default:
        break;
    }
}

void make_extended(struct maker *m, struct text *t, const struct made_name *id) {
    if (spoils(m)) {
        wrong_extended(m, t, id);
    } else {
        extended_of(t, id, extended_form(id->number));
    }
}

void serial_of(struct text *t, const struct made_name *serial) {
    text_byte(t, 128);
    text_add(t, serial->guid, 16);
    text_little(t, serial->number, 8);
}

void make_serial(struct maker *m, struct text *t, const struct made_name *serial) {
    if (!spoils(m)) {
        serial_of(t, serial);
        return;
    }
    switch (luck_below(&m->wrong, 3)) {
    case 0:
        text_byte(t, 0);
        break;
    case 1:
        any_byte(&m->wrong, t);
        text_add(t, serial->guid, 16);
        text_little(t, serial->number, 8);
        break;
    default:
        text_byte(t, 128);
        text_add(t, serial->guid, (size_t)luck_below(&m->wrong, 17));
        break;
    }
}

/* One of a few GUIDs, some of which differ in one byte, at either end; or any. */
void some_guid(struct luck *l, uint8_t *guid) {
    unsigned i, k = (unsigned)luck_below(l, 12);
    memset(guid, k < 10 ? 0 : 255, 16);
    if (k < 3) {
        guid[0] = (uint8_t)k;
    } else if (k < 6) {
        guid[15] = (uint8_t)(k - 3);
    } else if (k < 8) {
        guid[7 + k - 6] = 1;
    } else if (k == 8) {
        for (i = 0; i < 16; i++) {
            guid[i] = (uint8_t)luck_next(l);
        }
    }
}

/* ---- headers */

void plain_start(struct text *t, unsigned type, unsigned compound, uint64_t length) {
    if (type < 64 && length < 128) {
        text_little(t, compound << 2 | type << 3 | length << 9, 2);
        return;
    }
    text_little(t, 2 | compound << 2 | type << 3 | (length < 32767 ? length : 32767) << 17, 4);
    if (length >= 32767) {
        plain_compact(t, length);
    }
}

/* With the true length behind it, which is still to be put there. */
static void escaped_start(struct text *t, unsigned type, unsigned compound) {
    text_little(t, 2 | compound << 2 | type << 3 | (uint64_t)32767 << 17, 4);
}

/* With the true length behind it, which may be short. */
static void long_start(struct text *t, unsigned type, unsigned compound, uint64_t length) {
    escaped_start(t, type, compound);
    plain_compact(t, length);
}

/* And with one that is padded. */
static void padded_start(struct luck *l, struct text *t, unsigned type, unsigned compound, uint64_t length) {
    escaped_start(t, type, compound);
    padded_compact(l, t, length);
}

/* In any of the forms that are taken; the luck is the maker's own, or that of its wrong decisions. */
static void any_start(const struct maker *m, struct luck *l, struct text *t, unsigned type, unsigned compound, uint64_t length) {
    unsigned form = (unsigned)luck_below(l, 16);
    if (form == 0) {
        long_start(t, type, compound, length);
    } else if (form == 1 && m->pads) {
        padded_start(l, t, type, compound, length);
    } else if (form < 4 && length < 32767) {
        text_little(t, 2 | compound << 2 | type << 3 | length << 17, 4);
    } else {
        plain_start(t, type, compound, length);
    }
}

void plain_end(struct text *t, unsigned type) {
    if (type < 64) {
        text_byte(t, type << 2 | 1);
    } else {
        text_little(t, type << 2 | 3, 2);
    }
}

static unsigned some_type(struct luck *l) {
    static const unsigned types[] = {0x01, 0x0F, 0x10, 0x14, 0x15, 0x17, 0x40, 0x41, 0x42, 0x44, 0x47, 0x51, 0x54, 0x57,
                                     0x59, 0x5A, 0x5B, 0x5D, 0x5F, 0x62, 0x68, 0x85, 0x86, 0x88, 0x8A, 0x8D, 0x83, 0x30,
                                     0x00, 0x3F, 0x3FFF};
    return types[luck_below(l, sizeof types / sizeof *types)];
}

/* Something else than a start of this type. */
static void no_start(struct luck *l, struct text *t, unsigned type) {
    switch (luck_below(l, 4)) {
    case 0:
        plain_end(t, type);
        break;
    case 1:
        plain_end(t, some_type(l));
        break;
    case 2:
        any_byte(l, t);
        break;
    default:
        break;
    }
}

static void wrong_start(struct maker *m, struct text *t, unsigned type, unsigned compound, uint64_t length) {
    struct luck *l = &m->wrong;
    switch (luck_below(l, 13)) {
    case 0:
        any_start(m, l, t, type, !compound, length);
        break;
    case 1:
        any_start(m, l, t, some_type(l), compound, length);
        break;
    case 2:
        any_start(m, l, t, type ^ 1u << luck_below(l, 14), compound, length);
        break;
    case 3:
        any_start(m, l, t, type, compound, length + 1);
        break;
    case 4:
        any_start(m, l, t, type, compound, length - 1); /* 2^64-1 where there was none */
        break;
    case 5:
        any_start(m, l, t, type, compound, luck_number(l));
        break;
    case 6: /* the true length as a wrong number: padded, another, one byte, or none */
        escaped_start(t, type, compound);
        wrong_compact(m, t, length);
        break;
    case 7: /* a length that is right only if it is cut to 32 bits or to 15 */
        long_start(t, type, compound, length + ((uint64_t)1 << (luck_one_in(l, 2) ? 32 : 15)));
        break;
    case 8: /* padded, and another length or another type */
        padded_start(l, t, luck_one_in(l, 2) ? type : some_type(l), compound, length + luck_below(l, 3) - 1);
        break;
    default:
        no_start(l, t, type);
        break;
    }
}

void make_start(struct maker *m, struct text *t, unsigned type, unsigned compound, uint64_t length) {
    if (spoils(m)) {
        wrong_start(m, t, type, compound, length);
    } else if (pads_wrongly(m)) {
        padded_start(&m->wrong, t, type, compound, length);
    } else {
        any_start(m, &m->luck, t, type, compound, length);
    }
}

static void wrong_end(struct maker *m, struct text *t, unsigned type) {
    switch (luck_below(&m->wrong, 7)) {
    case 0:
        plain_end(t, some_type(&m->wrong));
        break;
    case 1:
        plain_end(t, type ^ 1u << luck_below(&m->wrong, type < 64 ? 6 : 14));
        break;
    case 2:
        plain_end(t, type);
        plain_end(t, type);
        break;
    case 3:
        any_start(m, &m->wrong, t, type, 1, 0);
        break;
    case 4:
        any_start(m, &m->wrong, t, some_type(&m->wrong), (unsigned)luck_below(&m->wrong, 2), luck_below(&m->wrong, 4));
        break;
    case 5:
        any_byte(&m->wrong, t);
        break;
    default:
        break;
    }
}

void make_end(struct maker *m, struct text *t, unsigned type) {
    int longer = luck_one_in(&m->luck, 6);
    if (spoils(m)) {
        wrong_end(m, t, type);
    } else if (longer) {
        text_little(t, type << 2 | 3, 2);
    } else {
        plain_end(t, type);
    }
}

/* An object whose data are these, which are given up; a field too many or too few is a decision too. */
void make_object(struct maker *m, struct text *t, unsigned type, unsigned compound, struct text *data) {
    size_t length = data->length;
    if (spoils(m)) {
        if (luck_one_in(&m->wrong, 2) || data->length == 0) {
            any_byte(&m->wrong, data);
        } else {
            data->length--;
        }
        length = luck_one_in(&m->wrong, 2) ? data->length : length;
    }
    make_start(m, t, type, compound, length);
    text_add(t, data->at, data->length);
    text_free(data);
}

/* A part of a layout that could be left out, be there twice, or have something before it: where it began is `from`. */
void part_made(struct maker *m, struct text *t, size_t from) {
    struct text again = {0};
    if (!spoils(m)) {
        return;
    }
    text_add(&again, t->at + from, t->length - from);
    switch (luck_below(&m->wrong, 5)) {
    case 0:
        t->length = from;
        break;
    case 1:
        text_add(t, again.at, again.length);
        break;
    case 2:
        t->length = from;
        any_start(m, &m->wrong, t, some_type(&m->wrong), 0, 0);
        text_add(t, again.at, again.length);
        break;
    case 3:
        any_start(m, &m->wrong, t, some_type(&m->wrong), 0, 0);
        break;
    default:
        any_byte(&m->wrong, t);
        break;
    }
    text_free(&again);
}

/* ---- what is only nested */

/* Any objects, nested at most so many levels. */
static void make_inside(struct maker *m, struct text *t, unsigned levels) {
    unsigned n = (unsigned)luck_below(&m->luck, levels > 10 ? 4 : 2);
    for (; n > 0; n--) {
        unsigned type = luck_one_in(&m->luck, 2) ? some_type(&m->luck) : (unsigned)luck_below(&m->luck, 64);
        unsigned compound = levels > 0 && luck_one_in(&m->luck, 3);
        size_t length = luck_one_in(&m->luck, 40) ? luck_below(&m->luck, 300) : luck_below(&m->luck, 9);
        make_start(m, t, type, compound, length);
        text_like(t, length, (unsigned)luck_below(&m->luck, 256));
        if (compound) {
            make_inside(m, t, levels - 1);
            make_end(m, t, type);
        }
    }
}

/* As deep as may be, or by a wrong decision one deeper; a plain object in the innermost, and behind some of the others. */
static void make_deep(struct maker *m, struct text *t, unsigned levels) {
    unsigned i, type = (unsigned)luck_below(&m->luck, 100);
    if (spoils(m)) {
        levels++;
    }
    for (i = 0; i < levels; i++) {
        any_start(m, &m->luck, t, type + i, 1, 0);
    }
    make_start(m, t, type, 0, 0);
    while (i > 0) {
        i--;
        make_end(m, t, type + i);
        if (luck_one_in(&m->luck, 8)) {
            make_start(m, t, type, 0, 0);
        }
    }
}

void make_nested(struct maker *m, struct text *t, unsigned levels) {
    switch (luck_below(&m->luck, 12)) {
    case 0:
        make_deep(m, t, levels);
        break;
    case 1:
    case 2:
    case 3:
        make_inside(m, t, levels);
        break;
    default:
        break;
    }
}
