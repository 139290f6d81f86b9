/* Knowledge, read and written: specialized knowledges, of which those of the cell kind hold ranges and entries, and others are
   passed over. */
#include "knowledge.h"
#include "objects.h"

#include <string.h>

/* 327A35F6-0761-4414-9686-51E900667A4D as it is sent, the first byte highest. */
static const struct guid cell_kind = {0xF6357A3261071444u, 0x968651E900667A4Du};

/* Where the ranges go, how many ranges and entries there were, and whether numbers may be padded. */
struct reading {
    struct ranges *set;
    unsigned count;
    enum padding padding;
};

static void take(struct reading *reading, const struct range *range) {
    if (reading->set != NULL) {
        add_range(reading->set, range);
    }
}

static int read_range(struct input *in, struct reading *reading) {
    struct range range;
    size_t place;
    if (!read_guid(in, &range.guid) || !read_number(in, &range.from, reading->padding)) {
        return 0;
    }
    place = in->at;
    if (!read_number(in, &range.to, reading->padding)) {
        return 0;
    }
    if (range.from > range.to) {
        return refuse(in, FROM_ABOVE_TO, place);
    }
    take(reading, &range);
    return end_run(in);
}

static int read_entry(struct input *in, struct reading *reading) {
    struct name serial;
    if (!read_serial(in, &serial)) {
        return 0;
    }
    if (!serial.null) {
        struct range range;
        range.guid = serial.guid;
        range.from = range.to = serial.number;
        take(reading, &range);
    }
    return end_run(in);
}

/* What an 0x14 holds, up to its end. */
static int read_cells(struct input *in, struct reading *reading) {
    struct header h;
    for (;;) {
        if (!next_header(in, &h, CELL_KNOWLEDGE)) {
            return 0;
        }
        if (!h.start) {
            return 1;
        }
        if (h.compound || (h.type != RANGE && h.type != ENTRY)) {
            return refuse(in, WRONG_LAYOUT, h.place);
        }
        if (reading->count == MOST_RANGES) {
            return refuse(in, TOO_MANY, h.place);
        }
        reading->count++;
        if (!true_length(in, &h, reading->padding)) {
            return 0;
        }
        begin_run(in, h.length);
        if (!(h.type == RANGE ? read_range(in, reading) : read_entry(in, reading))) {
            return 0;
        }
    }
}

static int read_specialized(struct input *in, struct header *h, unsigned most, struct reading *reading) {
    struct guid kind;
    if (!is_start(h, SPECIALIZED, COMPOUND)) {
        return refuse(in, WRONG_LAYOUT, h->place);
    }
    if (!fixed_length(in, h, 16, reading->padding) || !read_guid(in, &kind)) {
        return 0;
    }
    if (!same_guid(kind, cell_kind)) {
        return pass_inside(in, SPECIALIZED, 4, most, reading->padding);
    }
    return need_fixed_start(in, SPECIALIZED, CELL_KNOWLEDGE, COMPOUND, 0, reading->padding) && read_cells(in, reading) &&
           need_end(in, SPECIALIZED);
}

int read_knowledge(struct input *in, struct header *h, unsigned most, struct ranges *set, enum padding padding) {
    struct reading reading;
    reading.set = set;
    reading.count = 0;
    reading.padding = padding;
    if (!fixed_length(in, h, 0, padding)) {
        return 0;
    }
    for (;;) {
        struct header next;
        if (!next_header(in, &next, KNOWLEDGE)) {
            return 0;
        }
        if (!next.start) {
            return 1;
        }
        if (!read_specialized(in, &next, most, &reading)) {
            return 0;
        }
    }
}

int need_knowledge(struct input *in, unsigned open, unsigned most, struct ranges *set, enum padding padding) {
    struct header h;
    return expected_start(in, &h, open, KNOWLEDGE, COMPOUND) && read_knowledge(in, &h, most, set, padding);
}

unsigned range_length(uint64_t from, uint64_t to) {
    return 18 + compact_length(from) + compact_length(to);
}

uint64_t ranges_length(const struct ranges *set) {
    uint64_t n = 0;
    unsigned i;
    for (i = 0; i < set->count; i++) {
        n += range_length(set->rows[i].from, set->rows[i].to);
    }
    return n;
}

/* Without a range nothing stands between the start of two bytes and the end. */
uint64_t knowledge_length(uint64_t ranges) {
    return ranges == 0 ? 3 : KNOWLEDGE_AROUND + ranges;
}

static uint8_t *put_range(uint8_t *p, const struct range *range) {
    uint8_t *data = p + 2;
    p = put_compact(put_compact(put_guid(data, range->guid), range->from), range->to);
    data[-2] = RANGE << 3;
    data[-1] = (uint8_t)((p - data) << 1);
    return p;
}

uint8_t *put_knowledge(uint8_t *p, const struct ranges *set) {
    static const uint8_t before[] = {0x84, 0x00, 0x26, 0x02, 0x20, 0x00};
    static const uint8_t behind[] = {0x51, 0x13, 0x01, 0x41};
    unsigned i;
    if (set->count == 0) {
        *p++ = 0x84;
        *p++ = 0x00;
        *p++ = 0x41;
        return p;
    }
    memcpy(p, before, sizeof before);
    p = put_guid(p + sizeof before, cell_kind);
    *p++ = 0xA4;
    *p++ = 0x00;
    for (i = 0; i < set->count; i++) {
        p = put_range(p, &set->rows[i]);
    }
    memcpy(p, behind, sizeof behind);
    return p + sizeof behind;
}
