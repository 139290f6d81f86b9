/* Objects within objects (document 01): headers, the runs of data behind them, and what is only nested. */
#ifndef PEER_OBJECTS_H
#define PEER_OBJECTS_H

#include "numbers.h"

/* Types by number. */
enum {
    ELEMENT = 0x01,
    RANGE = 0x0F,
    KNOWLEDGE = 0x10,
    CELL_KNOWLEDGE = 0x14,
    PACKAGE = 0x15,
    ENTRY = 0x17,
    REQUEST = 0x40,
    SUB_RESPONSE = 0x41,
    SUB_REQUEST = 0x42,
    SPECIALIZED = 0x44,
    FILTER = 0x47,
    QUERY_CHANGES = 0x51,
    FILTER_IDS = 0x54,
    FILTER_TYPE = 0x57,
    CONSTRAINT = 0x59,
    PUT_CHANGES = 0x5A,
    ARGUMENTS = 0x5B,
    USER_AGENT = 0x5D,
    CHANGES = 0x5F,
    RESPONSE = 0x62,
    LOCK_ID = 0x85,
    ADDITIONAL_FLAGS = 0x86,
    DIAGNOSTIC_INPUT = 0x8A,
    NOTHING = 0x4000 /* no type, as those have 14 bits: for where nothing is open */
};

/* Request types (000, 2.2.1.6), which a sub-request and the sub-response to it have. */
enum request_type { TO_QUERY_CHANGES = 2, TO_PUT_CHANGES = 5 };

/* How many compound objects may be open. */
#define DEPTH 16u
#define DEPTH_READ 17u

enum { PLAIN = 0, COMPOUND = 1 };

struct header {
    size_t place;
    uint64_t length;
    unsigned type;
    int start, compound;
    int longer; /* the true length follows */
};

/* The next header, which may be any start, or the end of the open type: 2, then 4. What else is wrong with it is the caller's to
   say; the true length is still to be read. */
int next_header(struct input *in, struct header *h, unsigned open);

static inline int is_start(const struct header *h, unsigned type, int compound) {
    return h->start && h->type == type && h->compound == compound;
}

/* The true length, if it follows: its own 2, and 3 if it is padded where that is refused. */
int true_length(struct input *in, struct header *h, enum padding padding);

/* The same where the layout has one length: then 5 at the header. */
int fixed_length(struct input *in, struct header *h, uint64_t length, enum padding padding);

/* A start that the layout needs; the true length is still to be read. */
int expected_start(struct input *in, struct header *h, unsigned open, unsigned type, int compound);

/* The same with its true length. */
int need_start(struct input *in, struct header *h, unsigned open, unsigned type, int compound, enum padding padding);
int need_fixed_start(struct input *in, unsigned open, unsigned type, int compound, uint64_t length, enum padding padding);

/* The end that the layout needs. */
int need_end(struct input *in, unsigned open);

/* The fields of a run are read between these two. The second judges what is left over. */
void begin_run(struct input *in, uint64_t length);
int end_run(struct input *in);

/* Passes over all up to the end of the innermost open object, whose type this is; so many are open with it, of so many at most. */
int pass_inside(struct input *in, unsigned type, unsigned open, unsigned most, enum padding padding);

/* Each writes a header in its shortest form, and answers the place behind; the type has 14 bits. */
uint8_t *put_start(uint8_t *p, unsigned type, int compound, uint64_t length);
uint8_t *put_end(uint8_t *p, unsigned type);

/* Version, minimum version and signature. */
int read_front(struct input *in, uint64_t signature);

#endif
