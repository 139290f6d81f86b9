/* Numbers and names (document 01, 'Numbers and names'): compact integers, GUIDs, extended GUIDs and serial numbers, read as fields
   of a run and written in their one form. */
#ifndef PEER_NUMBERS_H
#define PEER_NUMBERS_H

#include "input.h"

/* The sixteen bytes as two numbers whose first byte is highest: comparing these is comparing the bytes in the order in which they
   are sent. */
struct guid {
    uint64_t high, low;
};

/* An extended GUID or a serial number. */
struct name {
    struct guid guid;
    uint64_t number;
    int null;
};

static inline int same_guid(struct guid a, struct guid b) {
    return a.high == b.high && a.low == b.low;
}

/* n bytes of a number, the lowest first. */
static inline uint64_t little(const uint8_t *p, unsigned n) {
    uint64_t x = 0;
    while (n > 0) {
        n--;
        x = x << 8 | p[n];
    }
    return x;
}

/* Eight bytes; spelled out, as compilers know this for one load. */
static inline uint64_t little8(const uint8_t *p) {
    return (uint64_t)p[0] | (uint64_t)p[1] << 8 | (uint64_t)p[2] << 16 | (uint64_t)p[3] << 24 | (uint64_t)p[4] << 32 |
           (uint64_t)p[5] << 40 | (uint64_t)p[6] << 48 | (uint64_t)p[7] << 56;
}

static inline uint64_t big8(const uint8_t *p) {
    return (uint64_t)p[7] | (uint64_t)p[6] << 8 | (uint64_t)p[5] << 16 | (uint64_t)p[4] << 24 | (uint64_t)p[3] << 32 |
           (uint64_t)p[2] << 40 | (uint64_t)p[1] << 48 | (uint64_t)p[0] << 56;
}

static inline struct guid guid_at(const uint8_t *p) {
    struct guid g = {big8(p), big8(p + 8)};
    return g;
}

/* The GUID that is handed to a call as two numbers: bytes 0 to 7 and bytes 8 to 15, each with its lowest byte first. */
struct guid guid_of_halves(uint64_t low, uint64_t high);

/* Whether numbers may be padded: stand in a form longer than they need. That is said here, once for each layout; true lengths,
   what is only nested, knowledge and package hand it on. */
enum padding {
    PADDING_TAKEN,
    PADDING_REFUSED,
    STORE_PADDING = PADDING_TAKEN,
    ANSWER_PADDING = PADDING_TAKEN,   /* in an answer that is read */
    HEADER_PADDING = PADDING_TAKEN,   /* in a single header */
    REQUEST_PADDING = PADDING_REFUSED /* in all of a request, and in filters and a knowledge that are handed in for one */
};

int read_byte(struct input *in, unsigned *value);

/* An item of so many bytes that are not looked at. */
int pass_bytes(struct input *in, size_t n);

/* A compact integer in any form that has it, and whether it is padded, 1 or 0. */
int read_compact(struct input *in, uint64_t *value, int *padded);

/* The same where padding is taken or refused: then it is 3. */
int read_number(struct input *in, uint64_t *value, enum padding padding);
int read_guid(struct input *in, struct guid *guid);
int read_extended_guid(struct input *in, struct name *id);
int read_serial(struct input *in, struct name *serial);

/* How many bytes are written for it; for a serial number that is not null always as many. */
#define SERIAL_BYTES 25u
unsigned compact_length(uint64_t value);
unsigned extended_guid_length(const struct name *id);

/* Each writes, and answers the place behind. */
uint8_t *put_little(uint8_t *p, uint64_t value, unsigned n);
uint8_t *put_compact(uint8_t *p, uint64_t value);
uint8_t *put_guid(uint8_t *p, struct guid guid);
uint8_t *put_extended_guid(uint8_t *p, const struct name *id);
uint8_t *put_serial(uint8_t *p, const struct name *serial);

#endif
