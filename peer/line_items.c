/* Cases of a single item: a number, an extended GUID, a serial number or a header, read and written. What is read stands at the
   front of bytes that count as the store. */
#include "lines.h"
#include "objects.h"
#include "spell.h"

#define ITEM_BYTES 32u /* no item is longer */
#define LARGEST_TYPE 0x3FFFu

void compact_line(const struct given *g, struct text *told) {
    struct input in;
    uint64_t value;
    int padded;
    if (!is_read(begin_bytes(&in, g, 0) && read_compact(&in, &value, &padded), told, &in, 0)) {
        return;
    }
    spell_number(told, "ok ", value);
    spell_number(told, " ", in.at);
    spell_number(told, " ", (uint64_t)padded);
}

/* A name that is read by this reader; null has a zero GUID and 0. */
static void name_line(const struct given *g, struct text *told, int (*read)(struct input *, struct name *)) {
    struct input in;
    struct name name;
    uint8_t guid[16];
    if (!is_read(begin_bytes(&in, g, 0) && read(&in, &name), told, &in, 0)) {
        return;
    }
    put_guid(guid, name.guid);
    spell_words(told, "ok");
    spell_hex(told, guid, sizeof guid);
    spell_number(told, " ", name.number);
    spell_number(told, " ", in.at);
}

void exguid_line(const struct given *g, struct text *told) {
    name_line(g, told, read_extended_guid);
}

void serial_line(const struct given *g, struct text *told) {
    name_line(g, told, read_serial);
}

/* A header alone. An end is no fault here, which it would be in a run with nothing open. */
static int read_alone(struct input *in, struct header *h) {
    return next_header(in, h, NOTHING) || in->fault == WRONG_END;
}

void header_line(const struct given *g, struct text *told) {
    struct input in;
    struct header h;
    size_t bytes;
    if (!is_read(begin_bytes(&in, g, 0) && read_alone(&in, &h), told, &in, 0)) {
        return;
    }
    bytes = in.at;
    if (!is_read(true_length(&in, &h, HEADER_PADDING), told, &in, 0)) {
        return;
    }
    spell_number(told, h.start ? "ok start" : "ok end", 8 * bytes);
    spell_number(told, " ", h.type);
    spell_number(told, " ", (uint64_t)h.compound);
    spell_number(told, " ", h.length);
    spell_number(told, " ", in.at);
}

void wcompact_line(const struct given *g, struct text *told) {
    uint8_t item[ITEM_BYTES];
    spell_written(told, item, put_compact(item, g->numbers[0]), g->numbers[1]);
}

/* The name that is given, written by this writer; a zero GUID with 0 stands for null. */
static void wname_line(const struct given *g, struct text *told, uint8_t *(*put)(uint8_t *, const struct name *)) {
    uint8_t item[ITEM_BYTES];
    struct name name;
    name.guid = g->guid;
    name.number = g->numbers[0];
    name.null = name.guid.high == 0 && name.guid.low == 0 && name.number == 0;
    spell_written(told, item, put(item, &name), g->numbers[1]);
}

void wexguid_line(const struct given *g, struct text *told) {
    wname_line(g, told, put_extended_guid);
}

void wserial_line(const struct given *g, struct text *told) {
    wname_line(g, told, put_serial);
}

/* Whether a type can be written. In writing 3 comes before 14. */
static int type_fits(uint64_t type, struct text *told) {
    if (type > LARGEST_TYPE) {
        spell_refusal(told, NO_FORM, 0, 0, 0);
    }
    return type <= LARGEST_TYPE;
}

void wstart_line(const struct given *g, struct text *told) {
    uint8_t item[ITEM_BYTES];
    if (type_fits(g->numbers[0], told)) {
        spell_written(told, item, put_start(item, (unsigned)g->numbers[0], g->numbers[1] == 1, g->numbers[2]), g->numbers[3]);
    }
}

void wend_line(const struct given *g, struct text *told) {
    uint8_t item[ITEM_BYTES];
    if (type_fits(g->numbers[0], told)) {
        spell_written(told, item, put_end(item, (unsigned)g->numbers[0]), g->numbers[1]);
    }
}
