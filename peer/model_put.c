/* The model of a put: everything is gone through from the front, each time anew. */
#include "model_put.h"
#include "make_inner.h"

#include <string.h>

static uint64_t highest_under(const struct maker *m, const uint8_t *hub) {
    uint64_t highest = 0;
    unsigned i;
    for (i = 0; i < m->elements; i++) {
        if (memcmp(m->serials[i].guid, hub, 16) == 0 && m->serials[i].number > highest) {
            highest = m->serials[i].number;
        }
    }
    return highest;
}

/* The position of the store's element with this id, or their number. */
static unsigned position_of(const struct maker *m, const struct made_name *id) {
    unsigned i = 0;
    while (i < m->elements && (m->ids[i].number != id->number || memcmp(m->ids[i].guid, id->guid, 16) != 0)) {
        i++;
    }
    return i;
}

/* Each that is handed in comes where its id stood, or behind all others. There may be too many. */
static void place_handed(struct put_model *p, const struct maker *m) {
    unsigned i;
    memset(p->handed, 0, sizeof p->handed);
    p->count = m->elements;
    for (i = 0; i < m->entering.count; i++) {
        unsigned position = position_of(m, &m->entering.ids[i]);
        if (position == m->elements) {
            position = p->count++;
        }
        if (position < MOST_MADE) {
            p->handed[position] = i + 1;
        }
    }
}

/* An element that enters: with a new serial number, and behind the shortest start. */
static void spell_entering(struct text *t, const struct made_entering *e, unsigned i, const struct text *elements,
                           const struct made_name *serial) {
    struct text data = {0};
    extended_of(&data, &e->ids[i], extended_form(e->ids[i].number));
    serial_of(&data, serial);
    plain_compact(&data, e->types[i]);
    plain_start(t, 0x01, 1, data.length);
    text_add(t, data.at, data.length);
    text_add(t, elements->at + e->insides[i], e->lengths[i]);
    text_free(&data);
}

static struct made_name new_serial(const struct put_model *p, const uint8_t *hub, unsigned handed) {
    struct made_name serial;
    memcpy(serial.guid, hub, 16);
    serial.number = p->highest + handed;
    return serial;
}

static void spell_new_store(struct put_model *p, const struct maker *m, const struct text *store, const struct text *elements,
                            const uint8_t *hub) {
    unsigned i;
    plain_start(&p->store, 0x15, 1, 1);
    text_byte(&p->store, 0);
    for (i = 0; i < p->count; i++) {
        p->places[i] = p->store.length;
        if (p->handed[i] == 0) {
            text_add(&p->store, store->at + m->places[i], m->lengths[i]);
        } else {
            struct made_name serial = new_serial(p, hub, p->handed[i]);
            spell_entering(&p->store, &m->entering, p->handed[i] - 1, elements, &serial);
        }
        p->lengths[i] = p->store.length - p->places[i];
    }
    plain_end(&p->store, 0x15);
}

void begin_put_model(struct put_model *p, const struct maker *m, const struct text *store, const struct text *elements,
                     const uint8_t *hub) {
    text_clear(&p->store);
    p->highest = highest_under(m, hub);
    place_handed(p, m);
    p->refusal = m->entering.count > UINT64_MAX - p->highest ? 16 : p->count > 256 ? 9 : 0;
    if (p->refusal == 0) {
        spell_new_store(p, m, store, elements, hub);
    }
}

void take_put(const struct put_model *p, struct maker *m, const uint8_t *hub) {
    unsigned i;
    for (i = 0; i < p->count; i++) {
        if (p->handed[i] > 0) {
            m->ids[i] = m->entering.ids[p->handed[i] - 1];
            m->types[i] = m->entering.types[p->handed[i] - 1];
            m->serials[i] = new_serial(p, hub, p->handed[i]);
        }
        m->places[i] = p->places[i];
        m->lengths[i] = p->lengths[i];
    }
    m->elements = p->count;
}
