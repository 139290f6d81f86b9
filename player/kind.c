/* What a file is (kind.h). */
#include "kind.h"
#include "../include/hub.h"
#include "objects.h"

#include <string.h>

#define FRONT 12u /* versions and signature of a request or an answer */

const char *kind_name(enum kind kind) {
    static const char *const names[] = {"a store", "a request", "a put", "an answer", "an answer to a put", "a knowledge"};
    return names[kind];
}

/* ---- the library's word */

/* What requests and puts are judged with. It has no fault of its own. */
static const uint8_t empty_store[4] = {0xAC, 0x02, 0x00, 0x55};

static uint64_t judge_store(const struct bytes *file, uint8_t *report) {
    uint64_t number = hub_element(HUB_IN_STORE, file->at, file->length, UINT64_MAX, report, HUB_REPORT_BYTES);
    return number == HUB_TOO_MANY && hub_report_number(report, HUB_AT_PLACE) == 0 ? 0 : number;
}

/* By the length of an answer to it, for which more is offered than any needs. */
static uint64_t judge_request(const struct bytes *file, uint8_t *report) {
    return hub_length(empty_store, sizeof empty_store, file->at, file->length, UINT64_MAX, report, HUB_REPORT_BYTES);
}

/* By what comes of it. With no room to write to there is always a refusal; one that is not the put's is told of good puts alone. */
static uint64_t judge_put(const struct bytes *file, uint8_t *report) {
    uint64_t number = hub_put(empty_store, sizeof empty_store, file->at, file->length, 0, 0, NULL, 0, NULL, 0, report,
                              HUB_REPORT_BYTES);
    return hub_report_number(report, HUB_AT_INPUT) == 0 ? 0 : number;
}

/* By a request with it, for which there is never room. */
static uint64_t judge_knowledge(const uint8_t *at, size_t length, uint8_t *report) {
    uint64_t number = hub_ask(1, HUB_NO_LIMIT, NULL, 0, at, length, NULL, 0, report, HUB_REPORT_BYTES);
    return number == HUB_OUTPUT_TOO_SHORT ? 0 : number;
}

uint64_t kind_judge(enum kind kind, const struct bytes *file, size_t from, uint8_t *report) {
    switch (kind) {
    case A_STORE:
        return judge_store(file, report);
    case A_REQUEST:
        return judge_request(file, report);
    case A_PUT:
        return judge_put(file, report);
    case AN_ANSWER:
        return hub_read(file->at, file->length, report, HUB_READ_REPORT_BYTES);
    case A_PUT_ANSWER:
        return hub_read_put(file->at, file->length, report, HUB_READ_REPORT_BYTES);
    default:
        return judge_knowledge(file->at + from, file->length - from, report);
    }
}

/* ---- what it is */

/* A knowledge as it lies beside a book begins with a line of text. */
static size_t sealed_front(const struct bytes *file) {
    static const char seal[] = "knowledge of a book of ";
    const uint8_t *end = NULL;
    if (file->length >= sizeof seal && memcmp(file->at, seal, sizeof seal - 1) == 0) {
        end = memchr(file->at, '\n', file->length);
    }
    return end == NULL ? 0 : (size_t)(end - file->at) + 1;
}

/* A call refuses a sub-request or a sub-response that is none of its own with 8, at the type. So a message is a put's if the call
   that serves no puts refuses it so, and the one that does has another word on it. */
static enum kind put_or(enum kind other, enum kind of_put, const struct bytes *file) {
    uint8_t report[HUB_READ_REPORT_BYTES];
    int is_put = kind_judge(other, file, FRONT, report) == HUB_NOT_SERVED &&
                 kind_judge(of_put, file, FRONT, report) != HUB_NOT_SERVED;
    return is_put ? of_put : other;
}

enum kind kind_of(const struct bytes *file, size_t *from) {
    static const uint8_t signature[7] = {0xCF, 0x29, 0xF3, 0x39, 0x94, 0x06, 0x9B};
    struct header h;
    *from = sealed_front(file);
    if (file->length >= FRONT && memcmp(file->at + 5, signature, 7) == 0 && (file->at[4] == 0x9C || file->at[4] == 0x9D)) {
        *from = FRONT;
        return file->at[4] == 0x9C ? put_or(A_REQUEST, A_PUT, file) : put_or(AN_ANSWER, A_PUT_ANSWER, file);
    }
    if (*from > 0 || (read_header(file->at, file->length, &h) == 0 && !h.end && h.type == KNOWLEDGE)) {
        return A_KNOWLEDGE;
    }
    return A_STORE;
}
