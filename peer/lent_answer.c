/* The peer's two answering calls with lent tables (lent_answer.h). */
#include "lent_answer.h"
#include "hub.h"
#include "lend.h"
#include "rows.h"
#include "spell.h"
#include "taken.h"

#include <string.h>

static struct block store_block, request_block, out_block, rows_block, ranges_block;

void begin_lent_answers(void) {
    store_block = new_block(LONGEST_BYTES);
    request_block = new_block(LONGEST_BYTES);
    out_block = new_block(LONGEST_BYTES);
    rows_block = new_block(LONGEST_TABLE * 8);
    ranges_block = new_block(LONGEST_TABLE * 8);
}

/* A block ends at a page, so that numbers that end there stand as they have to. */
static uint64_t *lend_table(struct block b, size_t numbers) {
    return (uint64_t *)(void *)lend_filled(b, numbers * 8);
}

/* The call itself, by the second call into the output, which it is lent whole. */
static uint64_t call(const struct lent_answer *a, struct lent_result *r, uint8_t *out, const struct peer_tables *tables) {
    if (!a->writes) {
        return peer_length_tables(r->store, a->store_len, r->request, a->request_len, a->offered, tables, r->report,
                                  sizeof r->report);
    }
    return peer_write_tables(r->store, a->store_len, r->request, a->request_len, out, (size_t)a->offered, tables, r->report,
                             sizeof r->report);
}

/* How many bytes of output are lent: to the first call none. */
static size_t room_of(const struct lent_answer *a) {
    return a->writes ? (size_t)a->offered : 0;
}

void run_lent_answer(const struct lent_answer *a, struct lent_result *r) {
    uint8_t *out = lend_filled(out_block, room_of(a));
    struct peer_tables tables;
    tables.rows = lend_table(rows_block, a->rows_len);
    tables.rows_len = a->rows_len;
    tables.ranges = lend_table(ranges_block, a->ranges_len);
    tables.ranges_len = a->ranges_len;
    r->store = lend_copy(store_block, a->store, a->store_len);
    r->request = lend_copy(request_block, a->request, a->request_len);
    memset(r->report, 0, sizeof r->report);
    r->number = call(a, r, out, &tables);
    r->out = a->writes ? out : NULL;
    r->rows = tables.rows;
    r->ranges = tables.ranges;
    r->length = hub_report_number(r->report, HUB_AT_LENGTH);
    r->row_count = r->number == 0 ? hub_report_number(r->report, HUB_REPORT_BYTES) : 0;
    r->range_count = r->number == 0 ? hub_report_number(r->report, HUB_REPORT_BYTES + 8) : 0;
}

const char *touched_by(const struct lent_answer *a, const struct lent_result *r) {
    if (!kept_beside(out_block, room_of(a), a->writes && r->number == 0 ? r->length : 0)) {
        return "the peer touches output past the answer";
    }
    if (!kept_beside(rows_block, a->rows_len * 8, r->row_count * ROW_NUMBERS * 8) ||
        !kept_beside(ranges_block, a->ranges_len * 8, r->range_count * RANGE_NUMBERS * 8)) {
        return "the peer touches a table past its rows";
    }
    if (!same_bytes(r->store, a->store, a->store_len) || !same_bytes(r->request, a->request, a->request_len)) {
        return "the peer touches an input";
    }
    return NULL;
}

void spell_answer(struct text *t, const struct lent_answer *a, const struct lent_result *r) {
    if (r->number != 0) {
        spell_report(t, r->number, r->report);
        return;
    }
    spell_words(t, "ok");
    if (a->writes) {
        spell_hex(t, r->out, (size_t)r->length);
    } else {
        spell_number(t, " ", r->length);
    }
    spell_rows(t, r->rows, r->row_count, ROW_NUMBERS);
    spell_rows(t, r->ranges, r->range_count, RANGE_NUMBERS);
}
