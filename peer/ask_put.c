/* The put that a bench sends. Its elements are judged as in a put, where padding is refused and serial numbers are ignored, and go
   in as they stand. */
#include "peer.h"
#include "report.h"
#include "request_frame.h"
#include "store.h"

#include <string.h>

/* The put's bytes beside its front, its id, the expected storage index and the elements: 0x5A with null and flags, and all that
   stands around the elements and behind them. */
#define AROUND (REQUEST_FRONT_BYTES + 14u)

/* Elements up to the end of the input: what is left behind one is judged as the start of another. */
static int judge_elements(struct input *in) {
    struct store elements;
    begin_elements(&elements);
    while (in->at < in->length) {
        struct header h;
        if (!next_header(in, &h, PACKAGE) || !read_element(in, &h, &elements, &in_put)) {
            return 0;
        }
    }
    return 1;
}

static struct name expected_index(uint64_t named, uint64_t guid_low, uint64_t guid_high, uint64_t number) {
    struct name index = {{0, 0}, 0, 1};
    if (named != 0) {
        index.guid = guid_of_halves(guid_low, guid_high);
        index.number = number;
        index.null = 0;
    }
    return index;
}

/* The package is there also if nothing enters. */
static void put_put(uint8_t *p, uint64_t id, const struct name *expected, const struct input *elements) {
    struct name null = {{0, 0}, 0, 1};
    p = put_request_front(p, TO_PUT_CHANGES, id);
    p = put_start(p, PUT_CHANGES, PLAIN, extended_guid_length(&null) + extended_guid_length(expected) + 1);
    p = put_little(put_extended_guid(put_extended_guid(p, &null), expected), 0, 1);
    p = put_end(p, SUB_REQUEST);
    p = put_little(put_start(p, PACKAGE, COMPOUND, 1), 0, 1);
    if (elements->length > 0) {
        memcpy(p, elements->bytes, elements->length);
    }
    put_end(put_end(p + elements->length, PACKAGE), REQUEST);
}

uint64_t peer_ask_put(uint64_t id, uint64_t named, uint64_t guid_low, uint64_t guid_high, uint64_t number,
                      const uint8_t *elements, size_t elements_len, uint8_t *out, size_t out_len, uint8_t *report,
                      size_t report_len) {
    struct name expected = expected_index(named, guid_low, guid_high, number);
    struct input in;
    uint64_t length;
    if (expected.number > UINT32_MAX) {
        return tell(NO_FORM, report, report_len, 0, 0, 0);
    }
    if (!begin_input(&in, elements, elements_len, LONGEST_INPUT) || !judge_elements(&in)) {
        return tell_fault(&in, 0, report, report_len);
    }
    length = AROUND + compact_length(id) + extended_guid_length(&expected) + (uint64_t)elements_len;
    if (length > LONGEST_INPUT) {
        return tell(TOO_LONG, report, report_len, 0, 0, 0);
    }
    if (length > out_len) {
        return tell(OUTPUT_TOO_SHORT, report, report_len, 0, 0, length);
    }
    put_put(out, id, &expected, &in);
    return tell(0, report, report_len, 0, 0, length);
}
