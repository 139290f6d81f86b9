/* The call that takes a put: reads store and put, decides the new store and the answer, and only then writes both. */
#include "answer_frame.h"
#include "knowledge.h"
#include "new_store.h"
#include "peer.h"
#include "report.h"

/* All that the new store and the answer are made of. */
struct work {
    struct store store;
    struct put put;
    struct new_store made;
    struct ranges known;
};

/* Document 01's answer with no elements; of what stands in the sub-response there is only the knowledge. */
static void put_answer(uint8_t *p, uint64_t id, const struct ranges *known) {
    p = put_sub_response(put_response(p), TO_PUT_CHANGES, id);
    put_answer_ends(put_knowledge(p, known));
}

static uint64_t answer_length(uint64_t id, const struct ranges *known) {
    return ANSWER_FRAME_BYTES + compact_length(id) + knowledge_length(ranges_length(known));
}

uint64_t peer_put(const uint8_t *store, size_t store_len, const uint8_t *request, size_t request_len, uint64_t guid_low,
                  uint64_t guid_high, uint8_t *new_store, size_t new_store_len, uint8_t *out, size_t out_len, uint8_t *report,
                  size_t report_len) {
    struct work w;
    struct input in;
    uint64_t length;
    unsigned fault;
    if (!begin_input(&in, store, store_len, LONGEST_INPUT) || !read_store(&in, &w.store)) {
        return tell_fault(&in, 0, report, report_len);
    }
    if (!begin_input(&in, request, request_len, LONGEST_INPUT) || !read_put(&in, &w.put)) {
        return tell_fault(&in, 1, report, report_len);
    }
    fault = apply_put(&w.made, &w.store, &w.put, guid_of_halves(guid_low, guid_high));
    if (fault != 0) {
        return tell(fault, report, report_len, 0, 0, 0);
    }
    if (w.made.length > new_store_len) {
        return tell(OUTPUT_TOO_SHORT, report, report_len, 0, 0, w.made.length);
    }
    know_all(&w.known, &w.made);
    length = answer_length(w.put.id, &w.known);
    if (length > out_len) {
        return tell(OUTPUT_TOO_SHORT, report, report_len, 0, 0, length);
    }
    put_new_store(new_store, &w.made, store, request);
    put_answer(out, w.put.id, &w.known);
    if (report_len >= PEER_PUT_REPORT_BYTES) {
        put_little(report + REPORT_BYTES, w.made.length, 8);
    }
    return tell(0, report, report_len, 0, 0, length);
}
