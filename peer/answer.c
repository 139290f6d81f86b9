/* The two answering calls, each without tables and with them. Deciding is one function: it reads store and request and decides the
   page for an output of so many bytes. Sending is another, which writes what was decided. The call for the length decides; the one
   that writes takes nobody's word: it decides again, for the output that it has, and sends. */
#include "answer_frame.h"
#include "knowledge.h"
#include "page.h"
#include "peer.h"
#include "report.h"
#include "rows.h"

#include <string.h>

/* The answer's bytes beside its elements, its knowledge, its id and its storage index. */
#define AROUND (ANSWER_FRAME_BYTES + 5u)

/* All that is decided. The knowledge that was asked with has grown by what the page takes. */
struct decision {
    struct store elements;
    struct order order;
    struct groups groups;
    struct asked asked;
    struct page page;
    struct name index;
};

/* The inputs as they are handed in. */
struct inputs {
    const uint8_t *store;
    size_t store_len;
    const uint8_t *request;
    size_t request_len;
};

/* ---- deciding */

/* The page for an output of so many bytes: 0 with its length in the report, or the refusal. */
static uint64_t decide(struct decision *d, const struct inputs *given, uint64_t offered, uint8_t *report, size_t report_len) {
    struct input in;
    size_t around;
    unsigned fault;
    if (!begin_input(&in, given->store, given->store_len, LONGEST_INPUT) || !read_store(&in, &d->elements)) {
        return tell_fault(&in, 0, report, report_len);
    }
    if (!begin_input(&in, given->request, given->request_len, LONGEST_INPUT) || !read_request(&in, &d->asked, &d->elements)) {
        return tell_fault(&in, 1, report, report_len);
    }
    order_rows(&d->order, &d->elements);
    link_groups(&d->groups, &d->elements, &d->order);
    d->index = storage_index(&d->elements);
    around = AROUND + compact_length(d->asked.id) + extended_guid_length(&d->index);
    fault = decide_page(&d->page, &d->groups, &d->asked, around, offered);
    return tell(fault, report, report_len, 0, 0, fault == TOO_MANY ? 0 : d->page.length);
}

/* ---- sending */

/* The element that goes out in this turn. */
static const struct element *element_of(const struct decision *d, unsigned turn) {
    return element_at(&d->groups, d->page.rows[turn]);
}

/* The elements of the page as they are stored; those that stand side by side in the store go in one copy. */
static uint8_t *put_elements(uint8_t *p, const uint8_t *bytes, const struct decision *d) {
    unsigned i = 0;
    while (i < d->page.sent) {
        size_t from = element_of(d, i)->place, length = 0;
        while (i < d->page.sent && element_of(d, i)->place == from + length) {
            length += element_of(d, i++)->length;
        }
        memcpy(p, bytes + from, length);
        p += length;
    }
    return p;
}

/* The object 0x5F: the storage index and the partial byte. */
static uint8_t *put_changes(uint8_t *p, const struct name *index, unsigned partial) {
    p = put_extended_guid(put_start(p, CHANGES, PLAIN, extended_guid_length(index) + 1), index);
    *p++ = (uint8_t)partial;
    return p;
}

/* The answer that was decided, which is as long as its page says. */
static void send_answer(uint8_t *p, const uint8_t *store, const struct decision *d) {
    p = put_elements(put_response(p), store, d);
    p = put_sub_response(p, TO_QUERY_CHANGES, d->asked.id);
    p = put_changes(p, &d->index, d->page.partial);
    put_answer_ends(put_knowledge(p, &d->asked.known));
}

/* ---- the calls */

uint64_t peer_length(const uint8_t *store, size_t store_len, const uint8_t *request, size_t request_len, uint64_t offered,
                     uint8_t *report, size_t report_len) {
    const struct inputs given = {store, store_len, request, request_len};
    struct decision d;
    return decide(&d, &given, offered, report, report_len);
}

uint64_t peer_write(const uint8_t *store, size_t store_len, const uint8_t *request, size_t request_len, uint8_t *out,
                    size_t out_len, uint8_t *report, size_t report_len) {
    const struct inputs given = {store, store_len, request, request_len};
    struct decision d;
    uint64_t number = decide(&d, &given, out_len, report, report_len);
    if (number == 0) {
        send_answer(out, store, &d);
    }
    return number;
}

/* ---- with tables */

/* The same, but that the tables' lengths are judged before all else (13). */
static uint64_t decide_lent(struct decision *d, const struct inputs *given, uint64_t offered, const struct peer_tables *tables,
                            uint8_t *report, size_t report_len) {
    if (tables->rows_len < ROWS_NEEDED || tables->ranges_len < RANGES_NEEDED) {
        return tell(TABLE_TOO_SHORT, report, report_len, 0, 0, 0);
    }
    return decide(d, given, offered, report, report_len);
}

/* The rows of both tables, and how many each got behind the length in the report. */
static void fill_tables(const struct peer_tables *tables, const struct decision *d, uint8_t *report, size_t report_len) {
    put_rows(tables->rows, &d->elements, &d->order);
    put_range_rows(tables->ranges, &d->asked.known);
    if (report_len >= PEER_TABLES_REPORT_BYTES) {
        put_little(put_little(report + REPORT_BYTES, d->elements.count, 8), d->asked.known.count, 8);
    }
}

uint64_t peer_length_tables(const uint8_t *store, size_t store_len, const uint8_t *request, size_t request_len, uint64_t offered,
                            const struct peer_tables *tables, uint8_t *report, size_t report_len) {
    const struct inputs given = {store, store_len, request, request_len};
    struct decision d;
    uint64_t number = decide_lent(&d, &given, offered, tables, report, report_len);
    if (number == 0) {
        fill_tables(tables, &d, report, report_len);
    }
    return number;
}

uint64_t peer_write_tables(const uint8_t *store, size_t store_len, const uint8_t *request, size_t request_len, uint8_t *out,
                           size_t out_len, const struct peer_tables *tables, uint8_t *report, size_t report_len) {
    const struct inputs given = {store, store_len, request, request_len};
    struct decision d;
    uint64_t number = decide_lent(&d, &given, out_len, tables, report, report_len);
    if (number == 0) {
        send_answer(out, store, &d);
        fill_tables(tables, &d, report, report_len);
    }
    return number;
}
