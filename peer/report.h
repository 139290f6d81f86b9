/* The reports of the calls. */
#ifndef PEER_REPORT_H
#define PEER_REPORT_H

#include "numbers.h"

#define REPORT_BYTES 24u

/* Tells input, place and length, if the report has room for them, and answers the number. */
static inline uint64_t tell(unsigned number, uint8_t *report, size_t report_len, uint64_t input, uint64_t place, uint64_t length) {
    if (report_len >= REPORT_BYTES) {
        put_little(put_little(put_little(report, input, 8), place, 8), length, 8);
    }
    return number;
}

/* Tells the fault of an input. */
static inline uint64_t tell_fault(const struct input *in, uint64_t input, uint8_t *report, size_t report_len) {
    return tell(in->fault, report, report_len, input, in->place, 0);
}

#endif
