/* Numbers and names, read and written. An item of which bytes are missing is 2, whatever those that are there show; its place is
   that of its first byte. */
#include "numbers.h"

/* How many zero bits stand below the lowest set bit of a byte that is not 0. */
static unsigned low_zeros(unsigned byte) {
#if defined(__GNUC__)
    return (unsigned)__builtin_ctz(byte);
#else
    unsigned n = 0;
    while ((byte >> n & 1) == 0) {
        n++;
    }
    return n;
#endif
}

/* Whether an item of n bytes stands here. */
static int has(struct input *in, size_t n) {
    return n <= in->end - in->at ? 1 : refuse(in, RUNS_PAST, in->at);
}

struct guid guid_of_halves(uint64_t low, uint64_t high) {
    uint8_t bytes[16];
    put_little(put_little(bytes, low, 8), high, 8);
    return guid_at(bytes);
}

int pass_bytes(struct input *in, size_t n) {
    if (!has(in, n)) {
        return 0;
    }
    in->at += n;
    return 1;
}

int read_byte(struct input *in, unsigned *value) {
    if (!has(in, 1)) {
        return 0;
    }
    *value = in->bytes[in->at++];
    return 1;
}

/* The lowest set bit tells the form: in n bytes, n from 1 to 7, it is bit n - 1, and the number stands above it. Only the byte 128
   has eight whole bytes behind it. The next shorter form has the numbers below 2^(7 * (n - 1)), and 0 has the byte 0: below that a
   number is padded. Both readers have this within themselves, as a call less for each number is worth it. */
static inline int read_marked(struct input *in, uint64_t *value, int *padded) {
    const uint8_t *p;
    unsigned n;
    uint64_t x, least;
    if (!has(in, 1)) {
        return 0;
    }
    p = in->bytes + in->at;
    if (p[0] == 0) {
        *value = 0;
        *padded = 0;
        in->at++;
        return 1;
    }
    n = low_zeros(p[0]) + 1;
    if (n == 8) {
        if (!has(in, 9)) {
            return 0;
        }
        n = 9;
        x = little8(p + 1);
        least = (uint64_t)1 << 49;
    } else {
        if (!has(in, n)) {
            return 0;
        }
        x = little(p, n) >> n;
        least = (uint64_t)1 << (7 * (n - 1));
    }
    *value = x;
    *padded = x < least;
    in->at += n;
    return 1;
}

int read_compact(struct input *in, uint64_t *value, int *padded) {
    return read_marked(in, value, padded);
}

int read_number(struct input *in, uint64_t *value, enum padding padding) {
    size_t place = in->at;
    int padded;
    if (!read_marked(in, value, &padded)) {
        return 0;
    }
    return padded && padding == PADDING_REFUSED ? refuse(in, NO_FORM, place) : 1;
}

int read_guid(struct input *in, struct guid *guid) {
    if (!has(in, 16)) {
        return 0;
    }
    *guid = guid_at(in->bytes + in->at);
    in->at += 16;
    return 1;
}

/* The forms of one, two and three bytes before the GUID: the number stands above `low` bits, and is at least `least`. */
static int read_number_first(struct input *in, struct name *id, unsigned n, unsigned low, uint64_t least) {
    const uint8_t *p = in->bytes + in->at;
    if (!has(in, n + 16)) {
        return 0;
    }
    id->number = little(p, n) >> low;
    if (id->number < least) {
        return refuse(in, NO_FORM, in->at);
    }
    id->guid = guid_at(p + n);
    id->null = 0;
    in->at += n + 16;
    return 1;
}

static int read_number_last(struct input *in, struct name *id) {
    const uint8_t *p = in->bytes + in->at;
    if (!has(in, 21)) {
        return 0;
    }
    id->number = little(p + 17, 4);
    if (id->number < 0x20000) {
        return refuse(in, NO_FORM, in->at);
    }
    id->guid = guid_at(p + 1);
    id->null = 0;
    in->at += 21;
    return 1;
}

static int read_null(struct input *in, struct name *name) {
    struct name null = {{0, 0}, 0, 1};
    *name = null;
    in->at++;
    return 1;
}

int read_extended_guid(struct input *in, struct name *id) {
    unsigned first;
    if (!has(in, 1)) {
        return 0;
    }
    first = in->bytes[in->at];
    if (first % 8 == 4) {
        return read_number_first(in, id, 1, 3, 0);
    }
    if (first == 0) {
        return read_null(in, id);
    }
    if (first % 64 == 32) {
        return read_number_first(in, id, 2, 6, 0x20);
    }
    if (first % 128 == 64) {
        return read_number_first(in, id, 3, 7, 0x400);
    }
    return first == 128 ? read_number_last(in, id) : refuse(in, NO_FORM, in->at);
}

int read_serial(struct input *in, struct name *serial) {
    const uint8_t *p;
    if (!has(in, 1)) {
        return 0;
    }
    p = in->bytes + in->at;
    if (p[0] == 0) {
        return read_null(in, serial);
    }
    if (p[0] != 128) {
        return refuse(in, NO_FORM, in->at);
    }
    if (!has(in, 25)) {
        return 0;
    }
    serial->guid = guid_at(p + 1);
    serial->number = little8(p + 17);
    serial->null = 0;
    in->at += 25;
    return 1;
}

/* How many bits a number has, at least 1. */
static unsigned bits_of(uint64_t value) {
#if defined(__GNUC__)
    return 64 - (unsigned)__builtin_clzll((unsigned long long)(value | 1));
#else
    unsigned n = 1;
    while (n < 64 && value >> n != 0) {
        n++;
    }
    return n;
#endif
}

unsigned compact_length(uint64_t value) {
    unsigned bits = bits_of(value);
    return bits <= 49 ? (bits + 6) / 7 : 9;
}

unsigned extended_guid_length(const struct name *id) {
    if (id->null) {
        return 1;
    }
    return id->number < 0x20 ? 17 : id->number < 0x400 ? 18 : id->number < 0x20000 ? 19 : 21;
}

uint8_t *put_little(uint8_t *p, uint64_t value, unsigned n) {
    for (; n > 0; n--) {
        *p++ = (uint8_t)value;
        value >>= 8;
    }
    return p;
}

uint8_t *put_compact(uint8_t *p, uint64_t value) {
    unsigned n = compact_length(value);
    if (value == 0) {
        *p++ = 0;
        return p;
    }
    if (n == 9) {
        *p++ = 128;
        return put_little(p, value, 8);
    }
    return put_little(p, value << n | (uint64_t)1 << (n - 1), n);
}

uint8_t *put_guid(uint8_t *p, struct guid guid) {
    unsigned i;
    for (i = 0; i < 8; i++) {
        p[i] = (uint8_t)(guid.high >> (56 - 8 * i));
        p[i + 8] = (uint8_t)(guid.low >> (56 - 8 * i));
    }
    return p + 16;
}

uint8_t *put_extended_guid(uint8_t *p, const struct name *id) {
    switch (extended_guid_length(id)) {
    case 1:
        *p++ = 0;
        return p;
    case 17:
        return put_guid(put_little(p, id->number << 3 | 4, 1), id->guid);
    case 18:
        return put_guid(put_little(p, id->number << 6 | 32, 2), id->guid);
    case 19:
        return put_guid(put_little(p, id->number << 7 | 64, 3), id->guid);
    default:
        return put_little(put_guid(put_little(p, 128, 1), id->guid), id->number, 4);
    }
}

uint8_t *put_serial(uint8_t *p, const struct name *serial) {
    if (serial->null) {
        return put_little(p, 0, 1);
    }
    return put_little(put_guid(put_little(p, 128, 1), serial->guid), serial->number, 8);
}
