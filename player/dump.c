/* The objects of a file with their places (dump.h). A line has the place of an object's header, counted from 0 as in refusals,
   then its type and its own data. Objects are followed as far as they are well-formed; a last line has the library's word. */
#include "dump.h"
#include "../include/hub.h"
#include "bytes.h"
#include "files.h"
#include "kind.h"
#include "objects.h"
#include "report.h"
#include "status.h"

#include <stdio.h>
#include <string.h>

#define DEEPEST 17u    /* as an answer that is read may have them */
#define DATA_SHOWN 32u /* of an object's own data, if it is shown in hex */
#define TRUE_LENGTH 4u /* where it stands in a header that has one */

struct view {
    enum kind kind;
    struct bytes file;
    size_t place, from;     /* where the next header stands; where the objects begin */
    uint64_t open[DEEPEST]; /* the types of the compound objects that are open */
    size_t depth;
};

/* ---- names */

struct type_name {
    uint64_t type;
    const char *name;
};

/* Those of document 01, and what elements, user agents, filters, puts and other knowledges hold (000, 2.2.1.5). */
static const struct type_name type_names[] = {
    {0x01, "element"}, {0x02, "object data BLOB"}, {0x03, "excluded data"}, {0x04, "waterline knowledge entry"},
    {0x05, "data BLOB declaration"}, {0x06, "element hash"}, {0x07, "storage manifest root"}, {0x0A, "revision manifest root"},
    {0x0B, "current revision"}, {0x0C, "storage manifest schema"}, {0x0D, "revision mapping"}, {0x0E, "cell mapping"},
    {0x0F, "range"}, {0x10, "knowledge"}, {0x11, "manifest mapping"}, {0x14, "cell knowledge"}, {0x15, "package"},
    {0x16, "object data"}, {0x17, "entry"}, {0x18, "object declaration"}, {0x19, "object group reference"},
    {0x1A, "revision manifest"}, {0x1C, "data BLOB reference"}, {0x1D, "object group declarations"},
    {0x1E, "object group data"}, {0x29, "waterline knowledge"}, {0x2D, "content tag knowledge"}, {0x2E, "content tag entry"},
    {0x40, "request"}, {0x41, "sub-response"}, {0x42, "sub-request"}, {0x44, "specialized knowledge"}, {0x47, "filter"},
    {0x4D, "error"}, {0x4F, "user agent version"}, {0x51, "query changes"}, {0x54, "filter: element ids"},
    {0x55, "user agent GUID"}, {0x57, "filter: element type"}, {0x59, "constraint"}, {0x5A, "put changes"},
    {0x5B, "arguments"}, {0x5D, "user agent"}, {0x5F, "query changes response"}, {0x62, "response"},
    {0x6A, "fragment"}, {0x6B, "fragment knowledge"}, {0x6C, "fragment knowledge entry"}, {0x85, "put changes lock id"},
    {0x86, "additional flags"}, {0x87, "put changes response"}, {0x8A, "diagnostic request option input"},
};

static const char *type_name(uint64_t type) {
    for (size_t i = 0; i < sizeof type_names / sizeof type_names[0]; i++) {
        if (type_names[i].type == type) {
            return type_names[i].name;
        }
    }
    return "object";
}

/* ---- the front of a file */

/* Whether bytes can be printed as they are. A file from elsewhere can have others, which a terminal would obey. */
static int is_text(const uint8_t *at, size_t n) {
    size_t i = 0;
    while (i < n && at[i] >= 0x20 && at[i] <= 0x7E) {
        i++;
    }
    return i == n;
}

static void say_kind(const struct view *v, const char *name) {
    printf("%s: %s, %zu bytes\n", name, kind_name(v->kind), v->file.length);
    if (v->kind == A_KNOWLEDGE && v->from > 0 && !is_text(v->file.at, v->from - 1)) {
        printf("%8d  a line of %zu bytes that is no seal: not all of them are text\n", 0, v->from);
    } else if (v->kind == A_KNOWLEDGE && v->from > 0) {
        printf("%8d  %.*s\n", 0, (int)v->from - 1, (const char *)v->file.at);
    } else if (v->from > 0) {
        const uint8_t *p = v->file.at;
        printf("%8d  version %d, minimum version %d, signature ", 0, p[0] + 256 * p[1], p[2] + 256 * p[3]);
        say_hex(p + 4, 8);
        printf("\n");
    }
}

/* ---- objects */

/* An extended GUID that is not null. */
static void say_exguid(const char *what, const uint8_t *at) {
    struct exguid x = read_exguid(at);
    printf("%s %llu of ", what, (unsigned long long)x.number);
    say_hex(x.guid, 16);
}

/* A number, and that it is padded: the value is then the same as of a shorter one, and a request may not have it. */
static void say_number(const char *what, const struct number *x) {
    printf("%s%llu%s", what, (unsigned long long)x->value, x->padded ? " (padded)" : "");
}

/* How many bytes a serial number has by its first one, of those that are left; 0 if that is in no form. */
static size_t serial_size(const uint8_t *at, size_t left) {
    size_t size = left > 0 && at[0] == 0x80 ? SERIAL_SIZE : left > 0 && at[0] == 0 ? 1 : 0;
    return size <= left ? size : 0;
}

/* The data of an element: id, serial number, which may be null in a put, and type. Whether they are all there. */
static int say_element(const uint8_t *at, size_t n) {
    size_t id = exguid_size(at[0]), serial = id < 17 || id > n ? 0 : serial_size(at + id, n - id);
    struct number type;
    if (serial == 0 || compact_number(at + id + serial, n - id - serial, &type) != 0) {
        return 0;
    }
    say_exguid("id", at);
    if (serial == SERIAL_SIZE) {
        printf(", serial %llu of ", told(at, id + 17));
        say_hex(at + id + 1, 16);
    } else {
        printf(", serial null");
    }
    say_number(", type ", &type);
    printf("\n");
    return 1;
}

/* The data of a range: GUID, from and to. */
static int say_range(const uint8_t *at, size_t n) {
    struct number from, to;
    if (n < 16 || compact_number(at + 16, n - 16, &from) != 0 ||
        compact_number(at + 16 + from.size, n - 16 - from.size, &to) != 0) {
        return 0;
    }
    say_number("", &from);
    say_number(" to ", &to);
    printf(" of ");
    say_hex(at, 16);
    printf("\n");
    return 1;
}

/* The data of a put changes: an extended GUID that is not used, the storage index that is expected, and a byte of flags. */
static int say_put_changes(const uint8_t *at, size_t n) {
    size_t unused = exguid_size(at[0]), expected = unused == 0 || unused >= n ? 0 : exguid_size(at[unused]);
    if (expected == 0 || unused + expected + 1 != n) {
        return 0;
    }
    if (expected == 1) {
        printf("expects no storage index");
    } else {
        say_exguid("expects storage index", at + unused);
    }
    printf(", flags %02x\n", at[n - 1]);
    return 1;
}

/* What an object is, and its own data. */
static void say_object(const struct header *h, const uint8_t *data) {
    size_t n = (size_t)h->length;
    printf("%s (0x%02llx, %s%zu byte%s%s)%s", type_name(h->type), (unsigned long long)h->type, h->compound ? "compound, " : "", n,
           n == 1 ? "" : "s", h->padded ? ", padded length" : "", n == 0 ? "\n" : ": ");
    if (n == 0 || (h->type == ELEMENT && say_element(data, n)) || (h->type == RANGE && say_range(data, n)) ||
        (h->type == PUT_CHANGES && say_put_changes(data, n))) {
        return;
    }
    say_hex(data, n < DATA_SHOWN ? n : DATA_SHOWN);
    printf("%s\n", n > DATA_SHOWN ? ".." : "");
}

static void say_front(const struct view *v, size_t depth) {
    printf("%8zu  %*s", v->place, (int)(2 * depth), "");
}

/* Whether padded numbers are taken in such a file. What is taken for a knowledge is one that an ask would carry. */
static int takes_padding(const struct view *v) {
    return v->kind == A_STORE || v->kind == AN_ANSWER || v->kind == A_PUT_ANSWER;
}

/* The next header, and the data behind it: 0, or the number of the fault that ends the dump. */
static uint64_t next_object(struct view *v) {
    struct header h;
    size_t left = v->file.length - v->place;
    uint64_t fault = read_header(v->file.at + v->place, left, &h);
    if (fault != 0) {
        v->place += h.size > 0 ? TRUE_LENGTH : 0; /* the header itself is there: the fault is in the true length behind it */
        return fault;
    }
    if (h.end) {
        if (v->depth == 0 || v->open[v->depth - 1] != h.type) {
            return HUB_WRONG_END;
        }
        v->depth--;
        say_front(v, v->depth);
        printf("end of %s\n", type_name(h.type));
    } else if (h.compound && v->depth == DEEPEST) {
        return HUB_TOO_DEEP;
    } else if (h.padded && !takes_padding(v)) {
        v->place += TRUE_LENGTH;
        return HUB_NO_FORM;
    } else if (h.length > left - h.size) {
        v->place += h.size; /* the data is the item that runs past */
        return HUB_RUNS_PAST;
    } else {
        say_front(v, v->depth);
        say_object(&h, v->file.at + v->place + h.size);
        if (h.compound) {
            v->open[v->depth++] = h.type;
        }
    }
    v->place += h.size + (size_t)h.length;
    return 0;
}

/* All of them: 0, or the fault, which is said. */
static uint64_t say_objects(struct view *v) {
    uint64_t fault = 0;
    while (fault == 0 && v->place < v->file.length) {
        fault = next_object(v);
    }
    if (fault == 0 && v->depth > 0) {
        fault = HUB_RUNS_PAST;
    }
    if (fault != 0) {
        say_front(v, v->depth);
        printf("here the objects are not well-formed: %llu (%s)\n", (unsigned long long)fault, hub_refusal_text(fault));
    }
    return fault;
}

/* ---- the library's word */

static void say_judgement(const struct view *v, uint64_t number, const uint8_t *report) {
    if (number != 0) {
        uint64_t place = hub_report_number(report, HUB_AT_PLACE) + (v->kind == A_KNOWLEDGE ? v->from : 0);
        printf("the library refuses it as %s: %llu at place %llu (%s)\n", kind_name(v->kind), (unsigned long long)number,
               (unsigned long long)place, hub_refusal_text(number));
    } else if (v->kind == AN_ANSWER) {
        printf("the library takes it as an answer: id %llu, %s, %llu elements, knowledge at %llu of %llu bytes\n",
               told(report, HUB_AT_ID), hub_report_number(report, HUB_AT_PARTIAL) == 1 ? "partial" : "the last",
               told(report, HUB_AT_COUNT), told(report, HUB_AT_PLACE),
               told(report, HUB_AT_LENGTH));
    } else if (v->kind == A_PUT_ANSWER) {
        printf("the library takes it as an answer to a put: id %llu, knowledge at %llu of %llu bytes\n", told(report, HUB_AT_ID),
               told(report, HUB_AT_PLACE), told(report, HUB_AT_LENGTH));
    } else {
        printf("the library takes it as %s\n", kind_name(v->kind));
    }
}

int dump(const char *name) {
    struct view v;
    uint8_t report[HUB_READ_REPORT_BYTES] = {0};
    memset(&v, 0, sizeof v);
    int status = file_read(name, HUB_LONGEST_ANSWER_READ, &v.file);
    if (status == ENDED_WELL) {
        v.kind = kind_of(&v.file, &v.from);
        v.place = v.from;
        say_kind(&v, name);
        uint64_t fault = say_objects(&v), number = kind_judge(v.kind, &v.file, v.from, report);
        say_judgement(&v, number, report);
        status = fault == 0 && number == 0 ? ENDED_WELL : WRONG_CONTENT;
    }
    bytes_free(&v.file);
    return status;
}
