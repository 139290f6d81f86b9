/* A store: its elements in a table, found by their ids. The packages of an answer and of a put are read by the same reader. */
#ifndef PEER_STORE_H
#define PEER_STORE_H

#include "numbers.h"

#define MOST_ELEMENTS 256u
#define SLOTS 512u /* twice as many as there are elements at most, so that a search soon comes to an empty one */

struct element {
    size_t place, length;
    size_t inside; /* where its data ends and what is inside begins */
    uint64_t type;
    struct name id, serial;
};

struct store {
    size_t first; /* where the first element stands or would stand */
    unsigned count;
    struct element elements[MOST_ELEMENTS];
    uint16_t ids[SLOTS]; /* position and 1, or 0: open addressing by a hash of the id */
};

/* What is judged of the serial numbers that elements have: that they are not null, or their form alone. That one was seen before is
   no fault: groups.h has what such elements are. */
enum serials { SERIALS_JUDGED, SERIALS_IGNORED };

/* Where elements stand, and how they are judged there: so many objects are open with an element, of so many at most. */
struct standing {
    unsigned open, most;
    enum padding padding;
    enum serials serials;
};

extern const struct standing in_store, in_answer, in_put;

struct header;

/* A store whole. Its numbers may be padded, and its elements go out as they stand. */
int read_store(struct input *in, struct store *store);

/* A package behind its header, which was read; the true length is still to be read. */
int read_package(struct input *in, struct header *h, struct store *store, const struct standing *standing);

/* The same with the header, which is needed here; open is the type that it stands in. */
int need_package(struct input *in, unsigned open, struct store *store, const struct standing *standing);

/* Elements without a package: a table with none, and one more element behind its header, which was read. */
void begin_elements(struct store *store);
int read_element(struct input *in, struct header *h, struct store *store, const struct standing *standing);

/* The extended GUID of the first element of type 1, or null. */
struct name storage_index(const struct store *store);

/* Whether two names are the same; null is so with null alone. */
int same_name(const struct name *a, const struct name *b);

/* The slot at which a search for a name begins. */
static inline unsigned slot_of(const struct name *name) {
    uint64_t x = (name->guid.high ^ (name->guid.low << 23 | name->guid.low >> 41)) + name->number * 0x9E3779B97F4A7C15u;
    x = (x ^ x >> 32) * 0xD6E8FEB86659FD93u;
    return (unsigned)(x >> 55);
}

/* The position of the element with this id, or the count if there is none. */
unsigned find_id(const struct store *store, const struct name *id);

#endif
