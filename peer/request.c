/* A request that queries changes, read from front to end in the order of 000, 2.2.2 and 2.2.2.1.3. */
#include "request.h"
#include "knowledge.h"
#include "request_frame.h"

/* Half of a cell ID, which has to be null. */
static int read_null_id(struct input *in) {
    struct name id;
    size_t place = in->at;
    if (!read_extended_guid(in, &id)) {
        return 0;
    }
    return id.null ? 1 : refuse(in, NOT_SERVED, place);
}

/* The object 0x51, whose byte is ignored, and the arguments. */
static int read_arguments(struct input *in) {
    struct header h;
    unsigned ignored, flags;
    if (!need_fixed_start(in, SUB_REQUEST, QUERY_CHANGES, PLAIN, 1, REQUEST_PADDING) || !read_byte(in, &ignored) ||
        !need_start(in, &h, SUB_REQUEST, ARGUMENTS, PLAIN, REQUEST_PADDING)) {
        return 0;
    }
    begin_run(in, h.length);
    if (!read_byte(in, &flags)) {
        return 0;
    }
    if ((flags & 3) != 3) {
        return refuse(in, NOT_SERVED, in->at - 1);
    }
    return read_null_id(in) && read_null_id(in) && end_run(in);
}

static int read_constraint(struct input *in, struct header *h, struct asked *asked) {
    if (!true_length(in, h, REQUEST_PADDING)) {
        return 0;
    }
    begin_run(in, h->length);
    return read_number(in, &asked->limit, REQUEST_PADDING) && end_run(in);
}

/* Constraint, filters and knowledge, as far as they are there, and the end of the sub-request. */
static int read_rest(struct input *in, struct asked *asked) {
    struct header h;
    asked->limit = UINT64_MAX;
    asked->filters = 0;
    if (!next_header(in, &h, SUB_REQUEST)) {
        return 0;
    }
    if (is_start(&h, CONSTRAINT, PLAIN) && (!read_constraint(in, &h, asked) || !next_header(in, &h, SUB_REQUEST))) {
        return 0;
    }
    asked->filters_at = h.place;
    while (is_start(&h, FILTER, COMPOUND)) {
        if (!read_filter(in, &h, asked->filters++, &asked->choice) || !next_header(in, &h, SUB_REQUEST)) {
            return 0;
        }
    }
    if (is_start(&h, KNOWLEDGE, COMPOUND) &&
        (!read_knowledge(in, &h, DEPTH, &asked->known, REQUEST_PADDING) || !next_header(in, &h, SUB_REQUEST))) {
        return 0;
    }
    return h.start ? refuse(in, WRONG_LAYOUT, h.place) : 1;
}

/* The package, if it is there, and the end of the request. */
static int read_behind(struct input *in) {
    struct header h;
    unsigned reserved;
    if (!next_header(in, &h, REQUEST)) {
        return 0;
    }
    if (is_start(&h, PACKAGE, COMPOUND)) {
        return fixed_length(in, &h, 1, REQUEST_PADDING) && read_byte(in, &reserved) &&
               pass_inside(in, PACKAGE, 2, DEPTH, REQUEST_PADDING) && need_end(in, REQUEST);
    }
    return h.start ? refuse(in, WRONG_LAYOUT, h.place) : 1;
}

int read_request(struct input *in, struct asked *asked, const struct store *store) {
    begin_choice(&asked->choice, store);
    asked->known.count = 0;
    return read_request_front(in, TO_QUERY_CHANGES, &asked->id) && read_arguments(in) && read_rest(in, asked) &&
           read_behind(in) && nothing_follows(in);
}
