/* Cases of the calls of peer.h, but for the one that takes a put (line_puts.c). Outputs and reports end at a protected page, and
   what a call has no right to touch is looked at. */
#include "hub.h"
#include "lend.h"
#include "lent_answer.h"
#include "lines.h"
#include "peer.h"
#include "spell.h"
#include "taken.h"

static struct block out_block, report_block;

void begin_calls(void) {
    out_block = new_block(LONGEST_REQUEST);
    report_block = new_block(HUB_READ_REPORT_BYTES);
    begin_lent_answers();
}

/* Either of the two calls that answer a request. */
static void answer_line(const struct given *g, int writes, struct text *told) {
    struct lent_answer a;
    struct lent_result r;
    a.writes = writes;
    a.offered = g->numbers[0];
    a.store = g->bytes[0];
    a.store_len = g->lengths[0];
    a.request = g->bytes[1];
    a.request_len = g->lengths[1];
    a.rows_len = (size_t)g->numbers[1];
    a.ranges_len = (size_t)g->numbers[2];
    run_lent_answer(&a, &r);
    if (touched_by(&a, &r) != NULL) {
        spell_words(told, "touched");
    } else {
        spell_answer(told, &a, &r);
    }
}

void length_line(const struct given *g, struct text *told) {
    answer_line(g, 0, told);
}

void write_line(const struct given *g, struct text *told) {
    answer_line(g, 1, told);
}

/* Every call of the bench is lent the longest report. */
static uint8_t *lend_report(void) {
    return lend_filled(report_block, HUB_READ_REPORT_BYTES);
}

/* A call that tells so many bytes of the report if it does not refuse: whether it did not. A refusal is spelled; and so is it that
   the call touched more of the report, or named another input than the first without a refusal. */
static int is_done(uint64_t number, const uint8_t *report, size_t told_bytes, struct text *told) {
    if (!kept_beside(report_block, HUB_READ_REPORT_BYTES, number == 0 ? told_bytes : HUB_REPORT_BYTES)) {
        spell_words(told, "touched");
        return 0;
    }
    if (number != 0) {
        spell_report(told, number, report);
        return 0;
    }
    if (hub_report_number(report, HUB_AT_INPUT) != 0) {
        spell_words(told, "another input");
        return 0;
    }
    return 1;
}

/* A call that writes a request or a put to so much of the output. */
static void spell_sent(uint64_t number, const uint8_t *out, size_t room, const uint8_t *report, struct text *told) {
    uint64_t length = number == 0 ? hub_report_number(report, HUB_AT_LENGTH) : 0;
    if (!kept_beside(out_block, room, length)) {
        spell_words(told, "touched");
    } else if (is_done(number, report, HUB_REPORT_BYTES, told)) {
        spell_words(told, hub_report_number(report, HUB_AT_PLACE) == 0 ? "ok" : "another place");
        spell_hex(told, out, (size_t)length);
    }
}

void ask_line(const struct given *g, struct text *told) {
    size_t room = (size_t)g->numbers[2];
    uint8_t *out = lend_filled(out_block, room), *report = lend_report();
    uint64_t number = peer_ask(g->numbers[0], g->numbers[1], g->bytes[0], g->lengths[0], g->bytes[1], g->lengths[1], out, room,
                               report, HUB_READ_REPORT_BYTES);
    spell_sent(number, out, room, report, told);
}

void ask_put_line(const struct given *g, struct text *told) {
    size_t room = (size_t)g->numbers[3];
    uint8_t *out = lend_filled(out_block, room), *report = lend_report();
    uint64_t number = peer_ask_put(g->numbers[0], g->numbers[1], guid_half(g, 0), guid_half(g, 8), g->numbers[2], g->bytes[0],
                                   g->lengths[0], out, room, report, HUB_READ_REPORT_BYTES);
    spell_sent(number, out, room, report, told);
}

/* The report's numbers that begin at these places. */
static void spell_told(struct text *told, const uint8_t *report, const size_t *places, size_t count) {
    size_t i;
    for (i = 0; i < count; i++) {
        spell_number(told, " ", hub_report_number(report, places[i]));
    }
}

void read_line(const struct given *g, struct text *told) {
    static const size_t before[] = {HUB_AT_ID, HUB_AT_PARTIAL, HUB_AT_NAMED};
    static const size_t behind[] = {HUB_AT_GUID_NUMBER, HUB_AT_ELEMENTS, HUB_AT_COUNT, HUB_AT_PLACE, HUB_AT_LENGTH};
    uint8_t *report = lend_report();
    uint64_t number = peer_read(g->bytes[0], g->lengths[0], report, HUB_READ_REPORT_BYTES);
    if (is_done(number, report, HUB_READ_REPORT_BYTES, told)) {
        spell_words(told, "ok");
        spell_told(told, report, before, sizeof before / sizeof *before);
        spell_hex(told, report + HUB_AT_GUID_LOW, 16);
        spell_told(told, report, behind, sizeof behind / sizeof *behind);
    }
}

void read_put_line(const struct given *g, struct text *told) {
    static const size_t places[] = {HUB_AT_ID, HUB_AT_PLACE, HUB_AT_LENGTH};
    uint8_t *report = lend_report();
    uint64_t number = peer_read_put(g->bytes[0], g->lengths[0], report, HUB_READ_REPORT_BYTES);
    if (is_done(number, report, PEER_READ_PUT_REPORT_BYTES, told)) {
        spell_words(told, "ok");
        spell_told(told, report, places, sizeof places / sizeof *places);
    }
}

/* An element of a store or of an answer; `apart` if it does not lie in what was handed in. */
static void part_line(const struct given *g, uint64_t kind, struct text *told) {
    uint8_t *report = lend_report();
    uint64_t number = peer_element(kind, g->bytes[0], g->lengths[0], g->numbers[0], report, HUB_READ_REPORT_BYTES);
    uint64_t place = hub_report_number(report, HUB_AT_PLACE), length = hub_report_number(report, HUB_AT_LENGTH);
    if (!is_done(number, report, HUB_REPORT_BYTES, told)) {
        return;
    }
    if (place > g->lengths[0] || length > g->lengths[0] - place) {
        spell_words(told, "apart");
        return;
    }
    spell_words(told, "ok");
    spell_hex(told, g->bytes[0] + place, (size_t)length);
}

void element_line(const struct given *g, struct text *told) {
    part_line(g, HUB_IN_STORE, told);
}

void received_line(const struct given *g, struct text *told) {
    part_line(g, HUB_IN_ANSWER, told);
}
