/* The request that a bench sends. Filters and knowledge are judged as in a request, where padding is refused, and go in as they
   stand. */
#include "filters.h"
#include "knowledge.h"
#include "peer.h"
#include "report.h"
#include "request_frame.h"

#include <string.h>

/* The request's bytes beside id, constraint, filters and knowledge. */
#define AROUND (REQUEST_FRONT_BYTES + 16u)

/* Filters up to the end of the input: what is left behind one is judged as the start of another. */
static int judge_filters(struct input *in) {
    struct choice none;
    unsigned count = 0;
    begin_choice(&none, NULL);
    while (in->at < in->length) {
        struct header h;
        if (!next_header(in, &h, SUB_REQUEST) || !read_filter(in, &h, count++, &none)) {
            return 0;
        }
    }
    return 1;
}

/* One knowledge, or nothing. */
static int judge_knowledge(struct input *in) {
    return in->length == 0 || (need_knowledge(in, SUB_REQUEST, DEPTH, NULL, REQUEST_PADDING) && nothing_follows(in));
}

static uint8_t *put_front(uint8_t *p, uint64_t id, uint64_t limit) {
    static const uint8_t arguments[] = {0x8A, 0x02, 0x02, 0x00, 0x00, 0xDA, 0x02, 0x06, 0x00, 0x03, 0x00, 0x00};
    p = put_request_front(p, TO_QUERY_CHANGES, id);
    memcpy(p, arguments, sizeof arguments);
    p += sizeof arguments;
    if (limit != UINT64_MAX) {
        *p++ = 0xCA;
        *p++ = 0x02;
        p = put_compact(put_little(p, 2 * compact_length(limit), 2), limit);
    }
    return p;
}

static uint8_t *put_part(uint8_t *p, const struct input *in) {
    if (in->length > 0) {
        memcpy(p, in->bytes, in->length);
    }
    return p + in->length;
}

uint64_t peer_ask(uint64_t id, uint64_t limit, const uint8_t *filters, size_t filters_len, const uint8_t *knowledge,
                  size_t knowledge_len, uint8_t *out, size_t out_len, uint8_t *report, size_t report_len) {
    static const uint8_t ends[] = {0x0B, 0x01, 0x03, 0x01};
    struct input first, second;
    uint64_t length;
    if (!begin_input(&first, filters, filters_len, LONGEST_INPUT) || !judge_filters(&first)) {
        return tell_fault(&first, 0, report, report_len);
    }
    if (!begin_input(&second, knowledge, knowledge_len, LONGEST_INPUT) || !judge_knowledge(&second)) {
        return tell_fault(&second, 1, report, report_len);
    }
    length = AROUND + compact_length(id) + (limit == UINT64_MAX ? 0 : 4 + compact_length(limit));
    length += (uint64_t)filters_len + knowledge_len;
    if (length > LONGEST_INPUT) {
        return tell(TOO_LONG, report, report_len, 0, 0, 0);
    }
    if (length > out_len) {
        return tell(OUTPUT_TOO_SHORT, report, report_len, 0, 0, length);
    }
    memcpy(put_part(put_part(put_front(out, id, limit), &first), &second), ends, sizeof ends);
    return tell(0, report, report_len, 0, 0, length);
}
