/* The other file of header.c: the same header in the same program. */
#include "header_twin.h"

const char *twin_text(uint64_t number) {
    return hub_refusal_text(number);
}

uint64_t twin_number(const uint8_t *report) {
    return hub_report_number(report, HUB_AT_GUID_NUMBER);
}

uint64_t twin_call(void) {
    return hub_write(NULL, 0, NULL, 0, NULL, 0, NULL, 0);
}

uint64_t twin_length(void) {
    return hub_length(NULL, 0, NULL, 0, 0, NULL, 0);
}

uint64_t twin_put(void) {
    return hub_put(NULL, 0, NULL, 0, 0, 0, NULL, 0, NULL, 0, NULL, 0);
}

uint64_t twin_keep(void) {
    return hub_keep(NULL, 0, NULL, 0, NULL, 0, NULL, 0);
}
