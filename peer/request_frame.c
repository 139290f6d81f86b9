/* The front of a request, read in the order of 000, 2.2.2, and written. */
#include "request_frame.h"

#include <string.h>

#define SIGNATURE 0x9B069439F329CF9Cu

static int read_agent(struct input *in) {
    return need_fixed_start(in, REQUEST, USER_AGENT, COMPOUND, 0, REQUEST_PADDING) &&
           pass_inside(in, USER_AGENT, 2, DEPTH, REQUEST_PADDING);
}

static int read_sub_request(struct input *in, enum request_type asked, uint64_t *id) {
    struct header h;
    uint64_t type, priority;
    size_t place;
    if (!need_start(in, &h, REQUEST, SUB_REQUEST, COMPOUND, REQUEST_PADDING)) {
        return 0;
    }
    begin_run(in, h.length);
    if (!read_number(in, id, REQUEST_PADDING)) {
        return 0;
    }
    place = in->at;
    if (!read_number(in, &type, REQUEST_PADDING)) {
        return 0;
    }
    if (type != (uint64_t)asked) {
        return refuse(in, NOT_SERVED, place);
    }
    return read_number(in, &priority, REQUEST_PADDING) && end_run(in);
}

int read_request_front(struct input *in, enum request_type type, uint64_t *id) {
    return read_front(in, SIGNATURE) && need_fixed_start(in, NOTHING, REQUEST, COMPOUND, 0, REQUEST_PADDING) &&
           read_agent(in) && read_sub_request(in, type, id);
}

/* The user agent is empty, and the priority is 0. */
uint8_t *put_request_front(uint8_t *p, enum request_type type, uint64_t id) {
    static const uint8_t before[] = {0x0C, 0x00, 0x0B, 0x00, 0x9C, 0xCF, 0x29, 0xF3, 0x39, 0x94, 0x06, 0x9B,
                                     0x06, 0x02, 0x00, 0x00, 0xEE, 0x02, 0x00, 0x00, 0x77, 0x01, 0x16, 0x02};
    memcpy(p, before, sizeof before);
    p = put_little(p + sizeof before, 2 * (compact_length(id) + 2), 2);
    return put_compact(put_compact(put_compact(p, id), type), 0);
}
