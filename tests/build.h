/* Bytes of stores, requests and answers as document 01 lays them out, each item in its shortest form: what the tests of the
   exported calls hand in, and what they await. */
#ifndef BUILD_H
#define BUILD_H

#include "lent.h"

#include <stddef.h>
#include <stdint.h>
#include <string.h>

/* Types by number. */
enum { ELEMENT = 0x01, RANGE = 0x0F, KNOWLEDGE = 0x10, CELL_KNOWLEDGE = 0x14, PACKAGE = 0x15, ENTRY = 0x17, INSIDE = 0x1D };
enum { LONGEST_TYPE = 0x3FFF }; /* of 14 bits */
enum { REQUEST = 0x40, SUB_RESPONSE = 0x41, SUB_REQUEST = 0x42, SPECIALIZED = 0x44, FILTER = 0x47, QUERY_CHANGES = 0x51 };
enum { FILTER_IDS = 0x54, FILTER_TYPE = 0x57, CONSTRAINT = 0x59, PUT_CHANGES = 0x5A, ARGUMENTS = 0x5B, USER_AGENT = 0x5D };
enum { CHANGES = 0x5F, RESPONSE = 0x62, LOCK_ID = 0x85, ADDITIONAL_FLAGS = 0x86, DIAGNOSTIC = 0x8A };

/* Types of sub-requests. */
enum { QUERY = 2, PUT = 5 };

/* The limit that a request without a constraint has. */
#define NO_LIMIT UINT64_MAX

/* Bytes that grow at their end. */
struct text {
    uint8_t *at;
    size_t length, room;
};

/* A range of numbers under the GUID whose sixteen bytes are all the same. */
struct range {
    uint8_t guid;
    uint64_t from, to;
};

static inline void add(struct text *t, const void *p, size_t n) {
    if (n > t->room - t->length) {
        size_t room = (t->length + n) * 2;
        uint8_t *larger = room_for(room);
        if (t->length > 0) {
            memcpy(larger, t->at, t->length);
        }
        free(t->at);
        t->at = larger;
        t->room = room;
    }
    if (n > 0) {
        memcpy(t->at + t->length, p, n);
    }
    t->length += n;
}

static inline void add_byte(struct text *t, unsigned b) {
    uint8_t x = (uint8_t)b;
    add(t, &x, 1);
}

/* n bytes of a number, the lowest first. */
static inline void add_le(struct text *t, size_t n, uint64_t x) {
    for (size_t i = 0; i < n; i++) {
        add_byte(t, (unsigned)(x % 256));
        x /= 256;
    }
}

/* n like bytes. */
static inline void add_like(struct text *t, size_t n, unsigned b) {
    uint8_t *p = room_for(n);
    memset(p, (int)b, n);
    add(t, p, n);
    free(p);
}

static inline void add_text(struct text *t, struct text *other) {
    add(t, other->at, other->length);
    free(other->at);
}

/* A compact integer: n bytes have 7 * n bits of the number, above the lowest set bit, which tells n; 2^49 and more take 9. */
static inline void add_compact(struct text *t, uint64_t x) {
    size_t n = 1;
    if (x == 0) {
        add_byte(t, 0);
        return;
    }
    while (n < 8 && x >> (7 * n) != 0) {
        n++;
    }
    if (n == 8) {
        add_byte(t, 0x80);
        add_le(t, 8, x);
        return;
    }
    add_le(t, n, x << n | (uint64_t)1 << (n - 1));
}

static inline void add_start(struct text *t, uint64_t type, uint64_t compound, uint64_t length) {
    if (type < 64 && length < 128) {
        add_le(t, 2, compound << 2 | type << 3 | length << 9);
        return;
    }
    add_le(t, 4, 2 | compound << 2 | type << 3 | (length < 32767 ? length : 32767) << 17);
    if (length >= 32767) {
        add_compact(t, length);
    }
}

static inline void add_end(struct text *t, uint64_t type) {
    if (type < 64) {
        add_byte(t, (unsigned)(type << 2 | 1));
    } else {
        add_le(t, 2, type << 2 | 3);
    }
}

/* The id 1, 2 .. 31 of an element: 17 bytes. */
static inline void add_id(struct text *t, unsigned id) {
    add_byte(t, id << 3 | 4);
    add_like(t, 16, 0x1D);
}

/* An element of type 5 with the id 1, 2 .. 31 and a serial number under the GUID of like bytes; inside it, if asked for, one
   plain object with so many bytes. */
static inline void add_element(struct text *t, unsigned id, uint8_t guid, uint64_t serial, size_t inside) {
    add_start(t, ELEMENT, 1, 43);
    add_id(t, id);
    add_byte(t, 0x80);
    add_like(t, 16, guid);
    add_le(t, 8, serial);
    add_compact(t, 5);
    if (inside > 0) {
        add_start(t, INSIDE, 0, inside);
        add_like(t, inside, 0x77);
    }
    add_end(t, ELEMENT);
}

/* n elements, whose ids and serial numbers count up from here. */
static inline void add_elements(struct text *t, unsigned id, uint8_t guid, uint64_t serial, unsigned n) {
    for (unsigned i = 0; i < n; i++) {
        add_element(t, id + i, guid, serial + i, 0);
    }
}

/* The type of nested objects, short, unless a test sets another. */
static unsigned nested_type = INSIDE;

/* n compound objects, each within the one before. */
static inline void add_nested(struct text *t, unsigned n) {
    for (unsigned i = 0; i < n; i++) {
        add_start(t, nested_type, 1, 0);
    }
    for (unsigned i = 0; i < n; i++) {
        add_end(t, nested_type);
    }
}

/* n elements, 47 bytes long and 3 more for each object of a short type nested inside them. The ids' numbers count up from 0x20 in
   the 10-bit form, of which there are 992, and the serial numbers from here. */
static inline void add_many_elements(struct text *t, uint8_t guid, uint64_t serial, unsigned n, unsigned nested) {
    for (unsigned i = 0; i < n; i++) {
        add_start(t, ELEMENT, 1, 44);
        add_le(t, 2, (uint64_t)(0x20 + i) << 6 | 0x20);
        add_like(t, 16, 0x1D);
        add_byte(t, 0x80);
        add_like(t, 16, guid);
        add_le(t, 8, serial + i);
        add_compact(t, 5);
        add_nested(t, nested);
        add_end(t, ELEMENT);
    }
}

/* A package around the elements' bytes. */
static inline void add_package(struct text *t, struct text elements) {
    add_start(t, PACKAGE, 1, 1);
    add_byte(t, 0);
    add_text(t, &elements);
    add_end(t, PACKAGE);
}

static inline void add_range(struct text *t, struct range r) {
    struct text data = {0};
    add_like(&data, 16, r.guid);
    add_compact(&data, r.from);
    add_compact(&data, r.to);
    add_start(t, RANGE, 0, data.length);
    add_text(t, &data);
}

/* A knowledge of n ranges; with none it is empty. */
static inline void add_knowledge(struct text *t, const struct range *r, size_t n) {
    static const uint8_t cell[16] = {0xF6, 0x35, 0x7A, 0x32, 0x61, 0x07, 0x14, 0x44,
                                     0x96, 0x86, 0x51, 0xE9, 0x00, 0x66, 0x7A, 0x4D};
    add_start(t, KNOWLEDGE, 1, 0);
    if (n > 0) {
        add_start(t, SPECIALIZED, 1, 16);
        add(t, cell, 16);
        add_start(t, CELL_KNOWLEDGE, 1, 0);
    }
    for (size_t i = 0; i < n; i++) {
        add_range(t, r[i]);
    }
    if (n > 0) {
        add_end(t, CELL_KNOWLEDGE);
        add_end(t, SPECIALIZED);
    }
    add_end(t, KNOWLEDGE);
}

/* An entry, 27 bytes long. */
static inline void add_entry(struct text *t, uint8_t guid, uint64_t number) {
    add_start(t, ENTRY, 0, 25);
    add_byte(t, 0x80);
    add_like(t, 16, guid);
    add_le(t, 8, number);
}

/* A knowledge of another kind, that is passed over: 22 bytes, the objects nested inside it, 3 bytes. */
static inline void add_other_knowledge(struct text *t, unsigned nested) {
    add_start(t, KNOWLEDGE, 1, 0);
    add_start(t, SPECIALIZED, 1, 16);
    add_like(t, 16, 0x99);
    add_nested(t, nested);
    add_end(t, SPECIALIZED);
    add_end(t, KNOWLEDGE);
}

/* A filter of every element, with this operation: 8 bytes. */
static inline void add_filter(struct text *t, unsigned operation) {
    add_start(t, FILTER, 1, 2);
    add_byte(t, 1);
    add_byte(t, operation);
    add_end(t, FILTER);
}

/* A filter of the elements of one type, with this operation: 12 bytes and the type's. */
static inline void add_type_filter(struct text *t, unsigned operation, uint64_t type) {
    struct text data = {0};
    add_compact(&data, type);
    add_start(t, FILTER, 1, 2);
    add_byte(t, 2);
    add_byte(t, operation);
    add_start(t, FILTER_TYPE, 0, data.length);
    add_text(t, &data);
    add_end(t, FILTER);
}

/* A filter that puts in n ids, at most 127: the first stands at its byte 11, and each is 17 bytes long. */
static inline void add_ids_filter(struct text *t, unsigned n) {
    struct text data = {0};
    add_compact(&data, n);
    for (unsigned i = 0; i < n; i++) {
        add_byte(&data, 1 << 3 | 4);
        add_like(&data, 16, i + 1);
    }
    add_start(t, FILTER, 1, 2);
    add_byte(t, 6);
    add_byte(t, 1);
    add_start(t, FILTER_IDS, 0, data.length);
    add_text(t, &data);
    add_end(t, FILTER);
}

/* A user agent; inside it, if asked for, one plain object with so many bytes. */
static inline void add_agent(struct text *t, size_t inside) {
    add_start(t, USER_AGENT, 1, 0);
    if (inside > 0) {
        add_start(t, INSIDE, 0, inside);
        add_like(t, inside, 0x77);
    }
    add_end(t, USER_AGENT);
}

static inline void add_constraint(struct text *t, uint64_t limit) {
    struct text most = {0};
    add_compact(&most, limit);
    add_start(t, CONSTRAINT, 0, most.length);
    add_text(t, &most);
}

/* A request with the id 1, up to what its sub-request of this type begins with. */
static inline void add_message_front(struct text *t, size_t agent, uint64_t type) {
    add_le(t, 2, 12);
    add_le(t, 2, 11);
    add_le(t, 8, 0x9B069439F329CF9C);
    add_start(t, REQUEST, 1, 0);
    add_agent(t, agent);
    add_start(t, SUB_REQUEST, 1, 3);
    add_compact(t, 1);
    add_compact(t, type);
    add_compact(t, 0);
}

/* A request with the id 1, up to its arguments. */
static inline void add_request_front(struct text *t, size_t agent) {
    add_message_front(t, agent, QUERY);
    add_start(t, QUERY_CHANGES, 0, 1);
    add_byte(t, 0);
    add_start(t, ARGUMENTS, 0, 3);
    add_le(t, 3, 3);
}

static inline void add_request_ends(struct text *t) {
    add_end(t, SUB_REQUEST);
    add_end(t, REQUEST);
}

/* The answer to a sub-request of this type with the id 1, with these elements, up to what its sub-response begins with. */
static inline void add_answer_front(struct text *t, struct text elements, uint64_t type) {
    add_le(t, 2, 12);
    add_le(t, 2, 11);
    add_le(t, 8, 0x9B069439F329CF9D);
    add_start(t, RESPONSE, 1, 1);
    add_byte(t, 0);
    add_package(t, elements);
    add_start(t, SUB_RESPONSE, 1, 3);
    add_compact(t, 1);
    add_compact(t, type);
    add_byte(t, 0);
}

static inline void add_answer_ends(struct text *t) {
    add_end(t, SUB_RESPONSE);
    add_end(t, RESPONSE);
}

/* The answer to a request with the id 1 from a store with no element of type 1: these elements, the partial byte and n ranges. */
static inline void add_answer(struct text *t, struct text elements, unsigned partial, const struct range *r, size_t n) {
    add_answer_front(t, elements, QUERY);
    add_start(t, CHANGES, 0, 2);
    add_byte(t, 0);
    add_byte(t, partial);
    add_knowledge(t, r, n);
    add_answer_ends(t);
}

#endif
