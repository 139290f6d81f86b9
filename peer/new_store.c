/* The store that a put makes of a store: decided whole before a byte of it is written. */
#include "new_store.h"
#include "objects.h"

#include <string.h>

/* An element's start: its data have at most 55 bytes, and so the shortest start has two. */
#define START_BYTES 2u

/* The highest number in the store under the hub's GUID, of elements that are to be replaced too. Where there is none the new
   numbers begin with 1, as they do behind 0. */
static uint64_t highest_of(const struct store *store, struct guid hub) {
    uint64_t highest = 0;
    unsigned i;
    for (i = 0; i < store->count; i++) {
        const struct name *serial = &store->elements[i].serial;
        if (same_guid(serial->guid, hub) && serial->number > highest) {
            highest = serial->number;
        }
    }
    return highest;
}

/* The bytes of an element that enters, as new data: id, serial number and type. Id and type have one form each in a put, where
   padding is refused; so written again they are the bytes that came. */
static unsigned data_length(const struct element *e) {
    return extended_guid_length(&e->id) + SERIAL_BYTES + compact_length(e->type);
}

/* What is inside an element, with its end. */
static size_t inside_length(const struct element *e) {
    return e->place + e->length - e->inside;
}

static uint64_t length_of(const struct new_element *e) {
    return e->enters ? START_BYTES + data_length(e->element) + (uint64_t)inside_length(e->element) : e->element->length;
}

/* All of the store stays. */
static void begin_new_store(struct new_store *made, const struct store *store) {
    unsigned i;
    made->count = store->count;
    for (i = 0; i < store->count; i++) {
        made->elements[i].element = &store->elements[i];
        made->elements[i].enters = 0;
        made->elements[i].serial = store->elements[i].serial;
    }
}

unsigned enter_all(struct new_store *made, const struct store *store, const struct store *entering) {
    unsigned i;
    begin_new_store(made, store);
    for (i = 0; i < entering->count; i++) {
        const struct element *e = &entering->elements[i];
        unsigned position = find_id(store, &e->id);
        if (position == store->count) { /* no id is twice in what enters, so it is one more */
            if (made->count == MOST_ELEMENTS) {
                return TOO_MANY;
            }
            position = made->count++;
        }
        made->elements[position].element = e;
        made->elements[position].enters = 1;
        made->elements[position].serial = e->serial;
    }
    return 0;
}

/* What enters gets numbers of its own, in the put's order. */
static void number_anew(struct new_store *made, const struct store *entering, struct guid hub, uint64_t highest) {
    unsigned i;
    for (i = 0; i < made->count; i++) {
        struct new_element *e = &made->elements[i];
        if (e->enters) {
            e->serial.guid = hub;
            e->serial.number = highest + 1 + (uint64_t)(e->element - entering->elements);
            e->serial.null = 0;
        }
    }
}

unsigned apply_put(struct new_store *made, const struct store *store, const struct put *put, struct guid hub) {
    const struct store *entering = &put->elements;
    struct name index = storage_index(store);
    uint64_t highest = highest_of(store, hub);
    unsigned i;
    if (!same_name(&index, &put->expected)) {
        return OTHER_INDEX;
    }
    if (entering->count > UINT64_MAX - highest) {
        return NO_SERIAL_LEFT;
    }
    if (enter_all(made, store, entering) != 0) {
        return TOO_MANY;
    }
    number_anew(made, entering, hub, highest);
    made->length = PACKAGE_BYTES;
    for (i = 0; i < made->count; i++) {
        made->length += length_of(&made->elements[i]);
    }
    return made->length <= LONGEST_INPUT ? 0 : TOO_LONG;
}

void know_all(struct ranges *set, const struct new_store *made) {
    unsigned i;
    set->count = 0;
    for (i = 0; i < made->count; i++) {
        struct range range;
        range.guid = made->elements[i].serial.guid;
        range.from = range.to = made->elements[i].serial.number;
        add_range(set, &range);
    }
}

/* An element that enters, behind the shortest start. */
static uint8_t *put_entering(uint8_t *p, const struct new_element *e, const uint8_t *put) {
    size_t inside = inside_length(e->element);
    p = put_start(p, ELEMENT, COMPOUND, data_length(e->element));
    p = put_compact(put_serial(put_extended_guid(p, &e->element->id), &e->serial), e->element->type);
    memcpy(p, put + e->element->inside, inside);
    return p + inside;
}

uint8_t *put_package_start(uint8_t *p) {
    return put_little(put_start(p, PACKAGE, COMPOUND, 1), 0, 1);
}

void put_new_store(uint8_t *p, const struct new_store *made, const uint8_t *store, const uint8_t *put) {
    unsigned i;
    p = put_package_start(p);
    for (i = 0; i < made->count; i++) {
        const struct new_element *e = &made->elements[i];
        if (e->enters) {
            p = put_entering(p, e, put);
        } else {
            memcpy(p, store + e->element->place, e->element->length);
            p += e->element->length;
        }
    }
    put_end(p, PACKAGE);
}
