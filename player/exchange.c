/* One ask and its answer (exchange.h). */
#include "exchange.h"
#include "report.h"
#include "status.h"

#include <stdio.h>

static int say_unexpected(const struct exchange *x, const char *what, uint64_t number, const uint8_t *report) {
    fprintf(stderr, "player: ask %llu: %s refuses: %llu, input %llu, place %llu (%s)\n", (unsigned long long)x->id, what,
            (unsigned long long)number, told(report, HUB_AT_INPUT),
            told(report, HUB_AT_PLACE), hub_refusal_text(number));
    return REFUSED;
}

/* ---- the bench's side: the request */

static uint64_t call_ask(struct exchange *x, uint8_t *report) {
    return hub_ask(x->id, x->limit, x->filters->at, x->filters->length, x->knowledge.at, x->knowledge.length, x->request.at,
                   x->request.room, report, HUB_REPORT_BYTES);
}

/* If the buffer is too short it grows to the length that is needed, and the call is made once more: what is needed is told exactly,
   so a second refusal for room is none that a talk has. */
static int ask(struct exchange *x) {
    uint8_t report[HUB_REPORT_BYTES] = {0};
    uint64_t number = call_ask(x, report);
    if (number == HUB_OUTPUT_TOO_SHORT) {
        size_t needed = told_size(report, HUB_AT_LENGTH);
        x->too_short++;
        if (!x->quiet) {
            printf("ask %llu: hub_ask refuses with 14, the buffer grows from %zu to the %zu bytes that are needed\n",
                   (unsigned long long)x->id, x->request.room, needed);
        }
        bytes_lend(&x->request, needed);
        number = call_ask(x, report);
    }
    if (number != HUB_DONE) {
        int filters = hub_report_number(report, HUB_AT_INPUT) == 0 && number != HUB_OUTPUT_TOO_SHORT;
        int status = say_unexpected(x, "hub_ask", number, report);
        return filters && x->filters->length > 0 ? WRONG_CONTENT : status;
    }
    x->request.length = told_size(report, HUB_AT_LENGTH);
    return ENDED_WELL;
}

/* ---- the hub's side: the answer, from the store and the bytes of the request alone */

/* Lends an output of exactly the length that the answer has. If the smallest page needs more than is offered, that is told with the
   refusal, and is lent: with less the talk would never get on. */
static int lend_output(struct exchange *x) {
    uint8_t report[HUB_REPORT_BYTES] = {0};
    uint64_t number = hub_length(x->store->at, x->store->length, x->request.at, x->request.length, x->offered, report,
                                 sizeof report);
    if (number != HUB_DONE && number != HUB_OUTPUT_TOO_SHORT) {
        return say_unexpected(x, "hub_length", number, report);
    }
    if (number == HUB_OUTPUT_TOO_SHORT) {
        x->too_short++;
        if (!x->quiet) {
            printf("ask %llu: hub_length refuses with 14, %llu bytes are offered: the %llu that the smallest page needs are lent\n",
                   (unsigned long long)x->id, (unsigned long long)x->offered, told(report, HUB_AT_LENGTH));
        }
    }
    bytes_lend(&x->answer, told_size(report, HUB_AT_LENGTH));
    return ENDED_WELL;
}

/* Into that output it goes at once, and fills it. */
static int answer(struct exchange *x) {
    uint8_t report[HUB_REPORT_BYTES] = {0};
    int status = lend_output(x);
    if (status != ENDED_WELL) {
        return status;
    }
    uint64_t number = hub_write(x->store->at, x->store->length, x->request.at, x->request.length, x->answer.at, x->answer.room,
                                report, sizeof report);
    if (number != HUB_DONE) {
        return say_unexpected(x, "hub_write", number, report);
    }
    x->answer.length = told_size(report, HUB_AT_LENGTH);
    if (x->answer.length != x->answer.room) {
        fprintf(stderr, "player: ask %llu: hub_write writes %zu bytes, and hub_length told %zu\n", (unsigned long long)x->id,
                x->answer.length, x->answer.room);
        return REFUSED;
    }
    return ENDED_WELL;
}

/* ---- the bench's side again: what came */

/* The knowledge is copied, as the next answer gets another buffer. */
static int take_answer(struct exchange *x) {
    uint64_t number = hub_read(x->answer.at, x->answer.length, x->report, sizeof x->report);
    if (number != HUB_DONE) {
        return say_unexpected(x, "hub_read", number, x->report);
    }
    if (hub_report_number(x->report, HUB_AT_ID) != x->id) {
        fprintf(stderr, "player: ask %llu: the answer is to another ask, with the id %llu\n", (unsigned long long)x->id,
                told(x->report, HUB_AT_ID));
        return REFUSED;
    }
    x->knowledge.length = 0;
    bytes_add(&x->knowledge, x->answer.at + told_size(x->report, HUB_AT_PLACE), told_size(x->report, HUB_AT_LENGTH));
    return ENDED_WELL;
}

int exchange_once(struct exchange *x) {
    x->id++;
    int status = ask(x);
    if (status == ENDED_WELL) {
        status = answer(x);
    }
    return status == ENDED_WELL ? take_answer(x) : status;
}

void exchange_free(struct exchange *x) {
    bytes_free(&x->request);
    bytes_free(&x->answer);
    bytes_free(&x->knowledge);
}
