/* The few items that the program reads by itself (objects.h). */
#include "objects.h"
#include "../include/hub.h"
#include "report.h"

#include <string.h>

/* n bytes of a number, the lowest first. */
static uint64_t lowest_first(const uint8_t *at, size_t n) {
    uint64_t x = 0;
    for (size_t i = n; i > 0; i--) {
        x = x << 8 | at[i - 1];
    }
    return x;
}

/* The lowest set bit of the first byte tells how many bytes there are. The next shorter form has seven bits fewer for the value;
   where that is the form of one byte, 0 is left to the byte 0. */
uint64_t compact_number(const uint8_t *at, size_t left, struct number *x) {
    struct number zero = {0, 1, 0};
    size_t n = 1;
    *x = zero;
    if (left == 0) {
        return HUB_RUNS_PAST;
    }
    if (at[0] == 0) {
        return 0;
    }
    while (n < 8 && (at[0] >> (n - 1) & 1) == 0) {
        n++;
    }
    x->size = n == 8 ? 9 : n;
    if (x->size > left) {
        return HUB_RUNS_PAST;
    }
    x->value = n == 8 ? lowest_first(at + 1, 8) : lowest_first(at, n) >> n;
    x->padded = x->value >> (7 * (n - 1)) == 0;
    return 0;
}

/* A start, whose form has so many bits for the type and for the length. */
static void start_of(uint64_t x, unsigned type_bits, unsigned length_bits, struct header *h) {
    h->compound = (int)(x >> 2 & 1);
    h->type = x >> 3 & (((uint64_t)1 << type_bits) - 1);
    h->length = x >> (3 + type_bits) & (((uint64_t)1 << length_bits) - 1);
}

uint64_t read_header(const uint8_t *at, size_t left, struct header *h) {
    static const size_t sizes[4] = {2, 1, 4, 2};
    struct header none = {0, 0, 0, 0, 0, 0};
    *h = none;
    if (left == 0 || sizes[at[0] & 3] > left) {
        return HUB_RUNS_PAST;
    }
    h->size = sizes[at[0] & 3];
    uint64_t x = lowest_first(at, h->size), fault = 0;
    h->end = (int)(x & 1);
    if (h->end) {
        h->type = x >> 2;
    } else if (h->size == 2) {
        start_of(x, 6, 7, h);
    } else {
        start_of(x, 14, 15, h);
    }
    if (!h->end && h->length == 32767) {
        struct number length;
        fault = compact_number(at + 4, left - 4, &length);
        h->length = length.value;
        h->padded = length.padded;
        h->size += length.size;
    }
    return fault;
}

size_t exguid_size(uint8_t first) {
    if (first == 0) {
        return 1;
    }
    if ((first & 7) == 4) {
        return 17;
    }
    if ((first & 63) == 32) {
        return 18;
    }
    if ((first & 127) == 64) {
        return 19;
    }
    return first == 128 ? 21 : 0;
}

/* The number stands before the GUID, or behind it in the longest form. */
struct exguid read_exguid(const uint8_t *at) {
    size_t n = exguid_size(at[0]), guid = n == 21 ? 1 : n - 16, shift = n == 17 ? 3 : n == 18 ? 6 : 7;
    struct exguid x = {0, at + guid};
    for (size_t i = n == 21 ? 21 : guid; i > (n == 21 ? 17u : 0u); i--) {
        x.number = x.number << 8 | at[i - 1];
    }
    x.number = n == 21 ? x.number : x.number >> shift;
    return x;
}

/* Finds the id in the bytes of one element, whose place is set already: whether there is one. */
static int find_names(const uint8_t *bytes, struct element *e) {
    struct header h;
    if (read_header(bytes + e->place, e->length, &h) != 0 || h.length > e->length - h.size || h.length == 0) {
        return 0;
    }
    e->id = e->place + h.size;
    e->id_length = exguid_size(bytes[e->id]);
    return e->id_length > 1 && e->id_length + SERIAL_SIZE <= h.length;
}

const uint8_t *serial_of(const uint8_t *bytes, const struct element *e) {
    return bytes + e->id + e->id_length;
}

uint64_t list_elements(uint64_t kind, const uint8_t *bytes, size_t length, struct elements *all, uint8_t *report) {
    uint64_t number = 0;
    all->count = 0;
    while (number == 0 && all->count < MOST_ELEMENTS) {
        struct element *e = &all->row[all->count];
        number = hub_element(kind, bytes, length, all->count, report, HUB_REPORT_BYTES);
        if (number == 0) {
            e->place = told_size(report, HUB_AT_PLACE);
            e->length = told_size(report, HUB_AT_LENGTH);
            if (!find_names(bytes, e)) {
                return HUB_WRONG_LAYOUT;
            }
            all->count++;
        }
    }
    /* A position past the last element falls on no item, and too many elements on the first header too many. */
    return number == HUB_TOO_MANY && hub_report_number(report, HUB_AT_PLACE) == 0 ? 0 : number;
}

/* Whether an element is the first that has its serial number. */
static int is_first(const uint8_t *bytes, const struct elements *all, size_t position) {
    const uint8_t *serial = serial_of(bytes, &all->row[position]);
    size_t before = 0;
    while (before < position && memcmp(serial_of(bytes, &all->row[before]), serial, SERIAL_SIZE) != 0) {
        before++;
    }
    return before == position;
}

size_t count_groups(const uint8_t *bytes, const struct elements *all) {
    size_t count = 0;
    for (size_t i = 0; i < all->count; i++) {
        count += (size_t)is_first(bytes, all, i);
    }
    return count;
}

size_t count_objects(const uint8_t *bytes, size_t length, uint64_t type) {
    size_t count = 0, place = 0;
    struct header h;
    while (place < length && read_header(bytes + place, length - place, &h) == 0) {
        count += !h.end && h.type == type;
        place += h.size;
        if (h.length > length - place) {
            break;
        }
        place += (size_t)h.length;
    }
    return count;
}
