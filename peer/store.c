/* A store, read in one pass. Whether an id was seen before is told by a hash table of positions. */
#include "store.h"
#include "objects.h"

#include <string.h>

/* The package is open around an element, and around that the response or the request. The serial numbers that come in a put are
   ignored: its elements get new ones. Elsewhere none may be null. */
const struct standing in_store = {2, DEPTH, STORE_PADDING, SERIALS_JUDGED};
const struct standing in_answer = {3, DEPTH_READ, ANSWER_PADDING, SERIALS_JUDGED};
const struct standing in_put = {3, DEPTH, REQUEST_PADDING, SERIALS_IGNORED};

int same_name(const struct name *a, const struct name *b) {
    return a->number == b->number && same_guid(a->guid, b->guid) && a->null == b->null;
}

/* The slot that has the id, or the empty one where it would stand. */
static unsigned slot_with(const struct store *store, const struct name *id) {
    unsigned slot = slot_of(id);
    while (store->ids[slot] != 0 && !same_name(&store->elements[store->ids[slot] - 1].id, id)) {
        slot = (slot + 1) % SLOTS;
    }
    return slot;
}

unsigned find_id(const struct store *store, const struct name *id) {
    unsigned position = store->ids[slot_with(store, id)];
    return position == 0 ? store->count : position - 1;
}

/* An id that was read from a place: 10, then 11. It is noted as the last element's. */
static int take_id(struct input *in, struct store *store, const struct name *id, size_t place) {
    unsigned slot;
    if (id->null) {
        return refuse(in, NULL_NAME, place);
    }
    slot = slot_with(store, id);
    if (store->ids[slot] != 0) {
        return refuse(in, SEEN_BEFORE, place);
    }
    store->ids[slot] = (uint16_t)(store->count + 1);
    return 1;
}

/* The fields of an element, which becomes the last of the table; it is counted when it is whole. */
static int read_fields(struct input *in, struct store *store, struct element *e, uint64_t length,
                       const struct standing *standing) {
    size_t place = in->at;
    begin_run(in, length);
    if (!read_extended_guid(in, &e->id) || !take_id(in, store, &e->id, place)) {
        return 0;
    }
    place = in->at;
    if (!read_serial(in, &e->serial)) {
        return 0;
    }
    if (standing->serials == SERIALS_JUDGED && e->serial.null) {
        return refuse(in, NULL_NAME, place);
    }
    return read_number(in, &e->type, standing->padding) && end_run(in);
}

/* One element behind its header. A package has this within its loop, as a call less for each element is worth it. */
static inline int take_element(struct input *in, struct header *h, struct store *store, const struct standing *standing) {
    struct element *e;
    if (!is_start(h, ELEMENT, COMPOUND)) {
        return refuse(in, WRONG_LAYOUT, h->place);
    }
    if (store->count == MOST_ELEMENTS) {
        return refuse(in, TOO_MANY, h->place);
    }
    e = &store->elements[store->count];
    if (!true_length(in, h, standing->padding) || !read_fields(in, store, e, h->length, standing)) {
        return 0;
    }
    e->inside = in->at;
    if (!pass_inside(in, ELEMENT, standing->open, standing->most, standing->padding)) {
        return 0;
    }
    e->place = h->place;
    e->length = in->at - h->place;
    store->count++;
    return 1;
}

int read_element(struct input *in, struct header *h, struct store *store, const struct standing *standing) {
    return take_element(in, h, store, standing);
}

void begin_elements(struct store *store) {
    store->count = 0;
    memset(store->ids, 0, sizeof store->ids);
}

int read_package(struct input *in, struct header *h, struct store *store, const struct standing *standing) {
    unsigned reserved;
    begin_elements(store);
    if (!fixed_length(in, h, 1, standing->padding) || !read_byte(in, &reserved)) {
        return 0;
    }
    store->first = in->at;
    for (;;) {
        struct header next;
        if (!next_header(in, &next, PACKAGE)) {
            return 0;
        }
        if (!next.start) {
            return 1;
        }
        if (!take_element(in, &next, store, standing)) {
            return 0;
        }
    }
}

int need_package(struct input *in, unsigned open, struct store *store, const struct standing *standing) {
    struct header h;
    return expected_start(in, &h, open, PACKAGE, COMPOUND) && read_package(in, &h, store, standing);
}

int read_store(struct input *in, struct store *store) {
    return need_package(in, NOTHING, store, &in_store) && nothing_follows(in);
}

struct name storage_index(const struct store *store) {
    struct name null = {{0, 0}, 0, 1};
    unsigned i;
    for (i = 0; i < store->count; i++) {
        if (store->elements[i].type == 1) {
            return store->elements[i].id;
        }
    }
    return null;
}
