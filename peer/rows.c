/* The rows of the tables that document 01 has lent to the answering calls. */
#include "rows.h"

/* The rows have a GUID's two halves as little-endian numbers, unlike struct guid. */
static void put_halves(uint64_t *to, struct guid guid) {
    uint8_t bytes[16];
    unsigned i;
    put_guid(bytes, guid);
    for (i = 0; i < 2; i++) {
        to[i] = little8(bytes + 8 * i);
    }
}

void put_rows(uint64_t *to, const struct store *store, const struct order *order) {
    unsigned i;
    for (i = 0; i < store->count; i++, to += ROW_NUMBERS) {
        const struct element *e = &store->elements[order->position[i]];
        to[0] = e->place;
        to[1] = e->length;
        to[2] = e->type;
        put_halves(to + 3, e->serial.guid);
        to[5] = e->serial.number;
        to[6] = rank_of(e);
    }
}

void put_range_rows(uint64_t *to, const struct ranges *set) {
    unsigned i;
    for (i = 0; i < set->count; i++, to += RANGE_NUMBERS) {
        put_halves(to, set->rows[i].guid);
        to[2] = set->rows[i].from;
        to[3] = set->rows[i].to;
    }
}
