/* A put, read from front to end in the order of 000, 2.2.2 and 2.2.2.1.4. What is not used is judged all the same. */
#include "put.h"
#include "knowledge.h"
#include "request_frame.h"

/* The object 0x5A: the storage index that the put brings, which is not used, the one that it expects, and a byte of flags, which
   are ignored. The run ends there, as in the dump of 000, 4.3. */
static int read_indexes(struct input *in, struct put *put) {
    struct header h;
    struct name brought;
    if (!need_start(in, &h, SUB_REQUEST, PUT_CHANGES, PLAIN, REQUEST_PADDING)) {
        return 0;
    }
    begin_run(in, h.length);
    return read_extended_guid(in, &brought) && read_extended_guid(in, &put->expected) && pass_bytes(in, 1) && end_run(in);
}

/* Fields of objects that may be absent: two bytes of flags and a number, a GUID, a byte. */
static int read_flags(struct input *in) {
    uint64_t reserved;
    return pass_bytes(in, 2) && read_number(in, &reserved, REQUEST_PADDING);
}

static int read_lock(struct input *in) {
    return pass_bytes(in, 16);
}

static int read_diagnostic(struct input *in) {
    return pass_bytes(in, 1);
}

/* If the header is of this plain object, its fields and the next header. */
static int read_if_there(struct input *in, struct header *h, unsigned type, int (*fields)(struct input *)) {
    if (!is_start(h, type, PLAIN)) {
        return 1;
    }
    if (!true_length(in, h, REQUEST_PADDING)) {
        return 0;
    }
    begin_run(in, h->length);
    return fields(in) && end_run(in) && next_header(in, h, SUB_REQUEST);
}

/* The same of a knowledge. */
static int read_known_if_there(struct input *in, struct header *h) {
    if (!is_start(h, KNOWLEDGE, COMPOUND)) {
        return 1;
    }
    return read_knowledge(in, h, DEPTH, NULL, REQUEST_PADDING) && next_header(in, h, SUB_REQUEST);
}

/* What may stand behind 0x5A, each at most once and in this order, and the end of the sub-request. */
static int read_rest(struct input *in) {
    struct header h;
    if (!next_header(in, &h, SUB_REQUEST) || !read_if_there(in, &h, ADDITIONAL_FLAGS, read_flags) ||
        !read_if_there(in, &h, LOCK_ID, read_lock) || !read_known_if_there(in, &h) ||
        !read_if_there(in, &h, DIAGNOSTIC_INPUT, read_diagnostic)) {
        return 0;
    }
    return h.start ? refuse(in, WRONG_LAYOUT, h.place) : 1;
}

/* The package, if it is there, and the end of the request. Without one nothing enters. */
static int read_entering(struct input *in, struct store *elements) {
    struct header h;
    if (!next_header(in, &h, REQUEST)) {
        return 0;
    }
    if (is_start(&h, PACKAGE, COMPOUND)) {
        return read_package(in, &h, elements, &in_put) && need_end(in, REQUEST);
    }
    begin_elements(elements);
    return h.start ? refuse(in, WRONG_LAYOUT, h.place) : 1;
}

int read_put(struct input *in, struct put *put) {
    return read_request_front(in, TO_PUT_CHANGES, &put->id) && read_indexes(in, put) && read_rest(in) &&
           read_entering(in, &put->elements) && nothing_follows(in);
}
