/* The bench's side of an answer, to a query or to a put: what came in it, and one element of it or of a store. Padding is taken in
   both. */
#include "answer_read.h"
#include "answer_frame.h"
#include "knowledge.h"
#include "peer.h"
#include "report.h"

#define READ_REPORT_BYTES 88u

static int read_changes(struct input *in, struct received *r) {
    struct header h;
    if (!need_start(in, &h, SUB_RESPONSE, CHANGES, PLAIN, ANSWER_PADDING)) {
        return 0;
    }
    begin_run(in, h.length);
    return read_extended_guid(in, &r->index) && read_byte(in, &r->partial) && end_run(in);
}

static int read_known(struct input *in, struct received *r) {
    r->knowledge = in->at;
    if (!need_knowledge(in, SUB_RESPONSE, DEPTH_READ, NULL, ANSWER_PADDING)) {
        return 0;
    }
    r->knowledge_length = in->at - r->knowledge;
    return 1;
}

/* The answer to a put has no 0x5F. */
int read_answer(struct input *in, enum request_type type, struct received *r) {
    return read_response(in) && need_package(in, RESPONSE, &r->package, &in_answer) && read_sub_response(in, type, &r->id) &&
           (type == TO_PUT_CHANGES || read_changes(in, r)) && read_known(in, r) && read_answer_ends(in);
}

static void tell_received(uint8_t *p, const struct received *r) {
    p = put_little(p, r->id, 8);
    p = put_little(p, r->partial & 1, 8);
    p = put_little(p, r->package.first, 8);
    p = put_little(p, r->package.count, 8);
    p = put_little(p, !r->index.null, 8);
    put_little(put_guid(p, r->index.guid), r->index.number, 8);
}

uint64_t peer_read(const uint8_t *answer, size_t answer_len, uint8_t *report, size_t report_len) {
    struct input in;
    struct received r;
    if (!begin_input(&in, answer, answer_len, LONGEST_ANSWER) || !read_answer(&in, TO_QUERY_CHANGES, &r)) {
        return tell_fault(&in, 0, report, report_len);
    }
    if (report_len >= READ_REPORT_BYTES) {
        tell_received(report + REPORT_BYTES, &r);
    }
    return tell(0, report, report_len, 0, r.knowledge, r.knowledge_length);
}

uint64_t peer_read_put(const uint8_t *answer, size_t answer_len, uint8_t *report, size_t report_len) {
    struct input in;
    struct received r;
    if (!begin_input(&in, answer, answer_len, LONGEST_ANSWER) || !read_answer(&in, TO_PUT_CHANGES, &r)) {
        return tell_fault(&in, 0, report, report_len);
    }
    if (report_len >= PEER_READ_PUT_REPORT_BYTES) {
        put_little(report + REPORT_BYTES, r.id, 8);
    }
    return tell(0, report, report_len, 0, r.knowledge, r.knowledge_length);
}

uint64_t peer_element(uint64_t kind, const uint8_t *bytes, size_t bytes_len, uint64_t position, uint8_t *report,
                      size_t report_len) {
    struct input in;
    struct received r;
    int good;
    if (kind == 0) {
        good = begin_input(&in, bytes, bytes_len, LONGEST_INPUT) && read_store(&in, &r.package);
    } else {
        good = begin_input(&in, bytes, bytes_len, LONGEST_ANSWER) && read_answer(&in, TO_QUERY_CHANGES, &r);
    }
    if (!good) {
        return tell_fault(&in, 0, report, report_len);
    }
    if (position >= r.package.count) {
        return tell(TOO_MANY, report, report_len, 0, 0, 0);
    }
    return tell(0, report, report_len, 0, r.package.elements[position].place, r.package.elements[position].length);
}
