/* What the calls tell (report.h). */
#include "report.h"
#include "../include/hub.h"

#include <stdio.h>

unsigned long long told(const uint8_t *report, size_t place) {
    return hub_report_number(report, place);
}

size_t told_size(const uint8_t *report, size_t place) {
    return (size_t)hub_report_number(report, place);
}

void say_hex(const uint8_t *at, size_t n) {
    for (size_t i = 0; i < n; i++) {
        printf("%02x", at[i]);
    }
}

void say_refused(const char *file, const char *what, uint64_t number, const uint8_t *report) {
    fprintf(stderr, "player: %s: %s: refused %llu at place %llu (%s)\n", file, what, (unsigned long long)number,
            told(report, HUB_AT_PLACE), hub_refusal_text(number));
}
