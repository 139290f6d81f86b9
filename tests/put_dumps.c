/* The dumps of puts that 000 and 003 print (dumps.h), through the exported calls: they enter an empty store, with every byte as it
   came but for the serial numbers, and none that has a storage index, as they expect none. The answer is compared with that of
   000, 4.4, object by object and then byte by byte. Of the put of 000, 4.3 only a part is printed: all up to the first element, the
   storage manifest, the cell manifest, the storage index and the ends. The exit status is 1 if a line is not ok. */
#include "../include/hub.h"
#include "build.h"
#include "damage.h"
#include "dumps.h"
#include "limits.h"
#include "puts.h"
#include "told.h"

#include <stdio.h>
#include <stdlib.h>
#include <string.h>

static struct text dump_of_003(void) {
    struct text request = {0};
    add(&request, put_of_003, sizeof put_of_003);
    return request;
}

static struct text part_of_000(void) {
    struct text request = {0};
    add(&request, front_of_000, sizeof front_of_000);
    add(&request, storage_manifest_of_000, sizeof storage_manifest_of_000);
    add(&request, cell_manifest_of_000, sizeof cell_manifest_of_000);
    add(&request, storage_index_of_000, sizeof storage_index_of_000);
    add(&request, ends_of_000, sizeof ends_of_000);
    return request;
}

/* ---- they enter */

/* The elements of a dump stand from its byte 85 on, between `AC 02 00` and `55 03 01`. Each begins with `0C` and the length of its
   data, one bit up; these are its id, its serial number of 25 bytes, and its type of one. */
enum { FRONT = 85, ENDS = 3, SERIAL_BYTES = 25 };

/* The store that has them, with the hub's serial numbers from this one on; none if an element is not as the others are. */
static struct text store_from(struct text request, uint64_t serial) {
    struct text store = {0}, none = {0};
    add_start(&store, PACKAGE, 1, 1);
    add(&store, request.at + FRONT - 1, request.length - FRONT + 1 - ENDS);
    add_end(&store, PACKAGE);
    uint8_t report[HUB_REPORT_BYTES] = {0};
    for (uint64_t i = 0; hub_element(HUB_IN_STORE, store.at, store.length, i, report, sizeof report) == HUB_DONE; i++) {
        uint8_t *element = store.at + number_in(report + HUB_AT_PLACE), *came = element + 2 + (element[1] >> 1) - 1 - SERIAL_BYTES;
        struct text number = {0};
        if (element[0] != 0x0C || *came != 0x80) {
            return none;
        }
        add_byte(&number, 0x80);
        add_like(&number, 16, SERIALS);
        add_le(&number, 8, serial + i);
        memcpy(came, number.at, SERIAL_BYTES);
        free(number.at);
    }
    return store;
}

/* Of a put with the id 1, which expects none, and its n elements, of which one is the index with the id that stands at 61, 17 bytes
   long. At 78 it says which index is expected. */
static void dump_enters(const char *what, struct text request, unsigned n) {
    char line[96];
    struct text empty = store_of(1, 0), after = store_from(request, 1), again = store_from(request, n + 1), index = {0};
    sprintf(line, "%s into an empty store", what);
    document_02(line, enters(putting(empty, request), after, told_from(1, n)));
    sprintf(line, "%s into the store that it left", what);
    document_02(line, put_refused(putting(after, request), refusal(HUB_OTHER_INDEX, 0, 0)));
    struct text other = put(store_of(7, 1), 47, 1 << 1 | 1);
    sprintf(line, "%s into a store with another index", what);
    document_02(line, put_refused(putting(other, request), refusal(HUB_OTHER_INDEX, 0, 0)));
    add(&index, request.at + 61, 17);
    struct text expecting = with(without(request, 78, 1), 78, index);
    expecting.at[59] = (uint8_t)(35 << 1); /* two ids and the flags */
    sprintf(line, "%s if it expects its own index", what);
    document_02(line, enters(putting(after, expecting), again, told_from(n + 1, 2 * n)));
    sprintf(line, "%s if it expects its own index, into an empty store", what);
    document_02(line, put_refused(putting(empty, expecting), refusal(HUB_OTHER_INDEX, 0, 0)));
    free(after.at);
    free(again.at);
    free(expecting.at);
}

/* ---- the answer */

/* One header of a message. */
struct object {
    unsigned end, type, compound, depth;
    size_t length;
};

/* The header at a place, which a message has behind its versions and its signature, and how long it is; depth is that of what is
   open, and counts on. None of those here is followed by a true length. */
static size_t header_at(const uint8_t *p, struct object *o, unsigned *depth) {
    unsigned kind = p[0] & 3, short_form = p[0] | (unsigned)p[1] << 8;
    uint32_t long_form = short_form;
    o->end = kind & 1;
    if (o->end) {
        o->type = kind == 1 ? p[0] >> 2 : short_form >> 2;
        o->compound = 0;
        o->length = 0;
        o->depth = --*depth;
        return kind == 1 ? 1 : 2;
    }
    if (kind == 2) {
        long_form |= (uint32_t)p[2] << 16 | (uint32_t)p[3] << 24;
    }
    o->type = kind == 2 ? long_form >> 3 & 0x3FFF : long_form >> 3 & 0x3F;
    o->compound = p[0] >> 2 & 1;
    o->length = kind == 2 ? long_form >> 17 : long_form >> 9;
    o->depth = *depth;
    *depth += o->compound;
    return kind == 2 ? 4 : 2;
}

enum { MOST_OBJECTS = 32 };

/* The headers of a message in their order, and how many there are. */
static size_t objects_of(struct text t, struct object *o) {
    size_t n = 0;
    unsigned depth = 0;
    for (size_t at = 12; at + 1 < t.length && n < MOST_OBJECTS; n++) {
        at += header_at(t.at + at, &o[n], &depth);
        at += o[n].length;
    }
    return n;
}

/* A line for each object: what the answer has, and whether the dump has the same there. */
static void compare_objects(struct text answer, struct text dump) {
    struct object ours[MOST_OBJECTS], printed[MOST_OBJECTS];
    size_t n = objects_of(answer, ours), m = objects_of(dump, printed);
    beside("as many objects as the dump has", n == m && n > 0);
    for (size_t i = 0; i < n && i < m; i++) {
        char line[96];
        struct object a = ours[i], b = printed[i];
        sprintf(line, a.end ? "end of 0x%02X" : a.compound ? "0x%02X, compound" : "0x%02X, plain", a.type);
        sprintf(line + strlen(line), ", %u open around it, %u bytes of data", a.depth, (unsigned)a.length);
        document_02(line, a.end == b.end && a.type == b.type && a.compound == b.compound && a.depth == b.depth &&
                              a.length == b.length);
    }
}

/* 000, 4.4 as an answer of this hub: with the empty package that document 01 has behind the response's status, at 17, and without
   the knowledge of another kind, from 0x5B up to the knowledge's end at 0x8C. */
static struct text printed_answer(void) {
    struct text dump = {0}, package = {0}, none = {0};
    add(&dump, answer_of_000, sizeof answer_of_000);
    add_package(&package, none);
    return with(without(dump, 0x5B, 0x8C - 0x5B), 17, package);
}

/* n elements whose serial numbers count up from 0 under a GUID that the dump has at a place; their ids have another GUID for each
   such place. In an element of 47 bytes the id's GUID stands at 4, and that of the serial number at 21. */
static void add_numbered(struct text *t, size_t guid_at, unsigned n) {
    struct text elements = {0};
    add_many_elements(&elements, SERIALS, 0, n, 0);
    for (unsigned i = 0; i < n; i++) {
        elements.at[47 * i + 4] = (uint8_t)guid_at;
        memcpy(elements.at + 47 * i + 21, answer_of_000 + guid_at, 16);
    }
    add_text(t, &elements);
}

/* A store whose serial numbers are those that the dump tells: 0 to 116 and 0 to 111 under two GUIDs, at 0x32 and 0x46. */
static void answers_as_printed(void) {
    struct text elements = {0}, printed = printed_answer(), nothing = put_of(1, 0);
    uint8_t out[256], new_store[16384], report[HUB_PUT_REPORT_BYTES];
    add_numbered(&elements, 0x32, 117);
    add_numbered(&elements, 0x46, 112);
    struct text store = store_around(elements), answer = {out, 0, sizeof out};
    uint64_t number = hub_put(store.at, store.length, nothing.at, nothing.length, 0, 0, new_store, sizeof new_store, out,
                              sizeof out, report, sizeof report);
    beside("a put to the store that 000, 4.4 tells of", number == HUB_DONE);
    answer.length = number == HUB_DONE ? (size_t)number_in(report + HUB_AT_LENGTH) : 0;
    compare_objects(answer, printed);
    document_02("the bytes of 000, 4.4, with an empty package and without the knowledge of another kind",
                answer.length == printed.length && memcmp(out, printed.at, printed.length) == 0);
    free(store.at);
    free(printed.at);
}

/* Read as it is printed, it has no package; with one its knowledge is all of what it tells, 117 bytes. */
static void answer_is_read(void) {
    struct text dump = {0}, package = {0}, none = {0};
    add(&dump, answer_of_000, sizeof answer_of_000);
    add_package(&package, none);
    beside("000, 4.4 read: a package is missing", read_put_refused(dump, refusal(HUB_WRONG_LAYOUT, 0, 17)));
    beside("with an empty package it is read", put_answer_read(with(dump, 17, package), 0x8D - 0x18));
    free(dump.at);
}

int main(void) {
    dump_enters("the put of 003, 3.1", dump_of_003(), 11);
    dump_enters("the part of 000, 4.3", part_of_000(), 3);
    answers_as_printed();
    answer_is_read();
    return ended();
}
