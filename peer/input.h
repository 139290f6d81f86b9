/* An input that is read from left to right, and the refusals by their numbers in documents 01 and 02. A reader answers 1, or 0 when
   the input has got its fault: number and place. The first fault stays, since nobody reads on behind it. */
#ifndef PEER_INPUT_H
#define PEER_INPUT_H

#include <stddef.h>
#include <stdint.h>

enum {
    TOO_LONG = 1,
    RUNS_PAST = 2,
    NO_FORM = 3,
    WRONG_END = 4,
    WRONG_LAYOUT = 5,
    TOO_DEEP = 6,
    WRONG_VERSION = 7,
    NOT_SERVED = 8,
    TOO_MANY = 9,
    NULL_NAME = 10,
    SEEN_BEFORE = 11,
    FROM_ABOVE_TO = 12,
    TABLE_TOO_SHORT = 13,
    OUTPUT_TOO_SHORT = 14,
    OTHER_INDEX = 15,
    NO_SERIAL_LEFT = 16
};

#define LONGEST_INPUT 16777216u
#define LONGEST_ANSWER 16842752u

struct input {
    const uint8_t *bytes;
    size_t length;
    size_t at;
    size_t end;     /* where the fields that are read have to end: that of their run or of the input, whichever is nearer */
    int cut;        /* the run goes on past the input */
    unsigned fault; /* 0 while there is none */
    size_t place;   /* of the fault */
};

static inline int refuse(struct input *in, unsigned fault, size_t place) {
    in->fault = fault;
    in->place = place;
    return 0;
}

/* Whether the input is no longer than it may be; else the limit is the place of the fault. */
static inline int begin_input(struct input *in, const uint8_t *bytes, size_t length, size_t longest) {
    in->bytes = bytes;
    in->length = length;
    in->at = 0;
    in->end = length;
    in->cut = 0;
    in->fault = 0;
    in->place = 0;
    return length <= longest ? 1 : refuse(in, TOO_LONG, longest);
}

/* Behind the last end there is no byte. */
static inline int nothing_follows(struct input *in) {
    return in->at == in->length ? 1 : refuse(in, WRONG_LAYOUT, in->at);
}

#endif
