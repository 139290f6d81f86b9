/* include/hub.h as C99 and as C++, included twice, in two files of one program: header_twin.c is the other. It needs no archive to
   be compiled; linked and run it looks at what the header itself says. The exit status is 1 if a line is not ok. */
#include "../include/hub.h"
#include "../include/hub.h"
#include "header_twin.h"

#include <stdio.h>
#include <string.h>

/* The limits are constants: they can be the lengths of arrays, and the preprocessor can compare them. */
static uint8_t report[HUB_READ_REPORT_BYTES];
#if HUB_LARGEST_ANSWER != HUB_LONGEST_INPUT + HUB_ANSWER_OVER_STORE || HUB_LARGEST_ANSWER != HUB_LONGEST_ANSWER_READ
#error "the largest answer is not that of the longest store, or cannot be read"
#endif
#if HUB_LARGEST_REQUEST != HUB_LONGEST_INPUT || HUB_REPORT_BYTES != 24u || HUB_READ_REPORT_BYTES != 88u
#error "the largest request cannot be read, or a report has another length"
#endif
#if HUB_LARGEST_PUT_ANSWER != 9284u || HUB_LARGEST_PUT_ANSWER > HUB_LONGEST_ANSWER_READ
#error "the largest answer to a put is another, or cannot be read"
#endif
#if HUB_PUT_REPORT_BYTES != 32u || HUB_READ_PUT_REPORT_BYTES != 32u
#error "the report of a put, or that of an answer to one, has another length"
#endif

static int failures = 0;

static void tell(const char *what, int good) {
    printf("%s: %s\n", good ? "ok" : "NOT OK", what);
    failures += !good;
}

static int version_is_one(void) {
    char text[64];
    sprintf(text, "%d.%d.%d", HUB_VERSION_MAJOR, HUB_VERSION_MINOR, HUB_VERSION_PATCH);
    return strcmp(text, HUB_VERSION) == 0;
}

/* The number 0x8070605040302010 at HUB_AT_GUID_NUMBER, the report's last. */
static int number_is_read(void) {
    size_t i;
    for (i = 0; i < 8; i++) {
        report[HUB_AT_GUID_NUMBER + i] = (uint8_t)(16 * (i + 1));
    }
    return hub_report_number(report, HUB_AT_GUID_NUMBER) == 0x8070605040302010u && hub_report_number(report, HUB_AT_ID) == 0;
}

/* The fourth number: the id, or the length of a new store. It is the last that a report of 32 bytes has. */
static int fourth_is_one(void) {
    return (size_t)HUB_AT_STORE_LENGTH == (size_t)HUB_AT_ID && HUB_AT_STORE_LENGTH + 8u == HUB_PUT_REPORT_BYTES;
}

static int texts_agree(void) {
    uint64_t i;
    for (i = 0; i < 20; i++) {
        if (strcmp(hub_refusal_text(i), twin_text(i)) != 0 || strlen(twin_text(i)) == 0) {
            return 0;
        }
    }
    return 1;
}

int main(void) {
    tell("the version's numbers and its text are one", version_is_one());
    tell("a number of a report is read", number_is_read() && twin_number(report) == 0x8070605040302010u);
    tell("the fourth number of a put's report is that of an answer's to one", fourth_is_one());
    tell("both files have the same words for a refusal", texts_agree());
    tell("both files make the same call", hub_write(NULL, 0, NULL, 0, NULL, 0, NULL, 0) == twin_call());
    tell("and the same that asks for the length", hub_length(NULL, 0, NULL, 0, 0, NULL, 0) == twin_length());
    tell("and the same that keeps", hub_keep(NULL, 0, NULL, 0, NULL, 0, NULL, 0) == twin_keep());
    tell("and the same put", hub_put(NULL, 0, NULL, 0, 0, 0, NULL, 0, NULL, 0, NULL, 0) == twin_put());
    printf("%d not ok\n", failures);
    return failures > 0;
}
