/* What the answers to a query and to a put share, read and written. */
#include "answer_frame.h"

#include <string.h>

#define SIGNATURE 0x9B069439F329CF9Du

/* A status byte: the low bit says that the other side failed, and what follows then is another layout. */
static int read_status(struct input *in) {
    unsigned status;
    if (!read_byte(in, &status)) {
        return 0;
    }
    return (status & 1) == 0 ? end_run(in) : refuse(in, WRONG_LAYOUT, in->at - 1);
}

int read_response(struct input *in) {
    struct header h;
    if (!read_front(in, SIGNATURE) || !need_start(in, &h, NOTHING, RESPONSE, COMPOUND, ANSWER_PADDING)) {
        return 0;
    }
    begin_run(in, h.length);
    return read_status(in);
}

int read_sub_response(struct input *in, enum request_type asked, uint64_t *id) {
    struct header h;
    uint64_t type;
    size_t place;
    if (!need_start(in, &h, RESPONSE, SUB_RESPONSE, COMPOUND, ANSWER_PADDING)) {
        return 0;
    }
    begin_run(in, h.length);
    if (!read_number(in, id, ANSWER_PADDING)) {
        return 0;
    }
    place = in->at;
    if (!read_number(in, &type, ANSWER_PADDING)) {
        return 0;
    }
    return type == (uint64_t)asked ? read_status(in) : refuse(in, NOT_SERVED, place);
}

int read_answer_ends(struct input *in) {
    return need_end(in, SUB_RESPONSE) && need_end(in, RESPONSE) && nothing_follows(in);
}

uint8_t *put_response(uint8_t *p) {
    static const uint8_t before[] = {0x0C, 0x00, 0x0B, 0x00, 0x9D, 0xCF, 0x29, 0xF3, 0x39, 0x94,
                                     0x06, 0x9B, 0x16, 0x03, 0x02, 0x00, 0x00, 0xAC, 0x02, 0x00};
    memcpy(p, before, sizeof before);
    return p + sizeof before;
}

uint8_t *put_sub_response(uint8_t *p, enum request_type type, uint64_t id) {
    static const uint8_t before[] = {0x55, 0x0E, 0x02};
    memcpy(p, before, sizeof before);
    p = put_little(p + sizeof before, 2 * (compact_length(id) + 2), 2);
    p = put_compact(put_compact(p, id), type);
    *p++ = 0;
    return p;
}

uint8_t *put_answer_ends(uint8_t *p) {
    static const uint8_t ends[] = {0x07, 0x01, 0x8B, 0x01};
    memcpy(p, ends, sizeof ends);
    return p + sizeof ends;
}
