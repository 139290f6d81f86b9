/* One put and its answer (put.h). */
#include "put.h"
#include "../include/hub.h"
#include "report.h"
#include "status.h"

#include <stdio.h>

static int say_unexpected(const struct put *p, const char *what, uint64_t number, const uint8_t *report) {
    fprintf(stderr, "player: put %llu: %s refuses: %llu, input %llu, place %llu (%s)\n", (unsigned long long)p->id, what,
            (unsigned long long)number, told(report, HUB_AT_INPUT), told(report, HUB_AT_PLACE), hub_refusal_text(number));
    return REFUSED;
}

/* Lends a buffer that was too short the length that is needed. */
static void grow(const struct put *p, const char *what, struct bytes *buffer, const uint8_t *report) {
    size_t needed = told_size(report, HUB_AT_LENGTH);
    if (!p->quiet) {
        printf("put %llu: %s grows from %zu to the %zu bytes that are needed\n", (unsigned long long)p->id, what, buffer->room,
               needed);
    }
    bytes_lend(buffer, needed);
}

/* ---- the bench's side: the put */

static uint64_t ask_put(struct put *p, const uint8_t *expected, uint8_t *report) {
    return hub_ask_put(p->id, hub_report_number(expected, HUB_AT_NAMED), hub_report_number(expected, HUB_AT_GUID_LOW),
                       hub_report_number(expected, HUB_AT_GUID_HIGH), hub_report_number(expected, HUB_AT_GUID_NUMBER),
                       p->elements->at, p->elements->length, p->request.at, p->request.room, report, HUB_REPORT_BYTES);
}

static void say_written(const struct put *p, const uint8_t *expected) {
    printf("put %llu: %zu bytes, elements of %zu bytes, expects ", (unsigned long long)p->id, p->request.length,
           p->elements->length);
    if (hub_report_number(expected, HUB_AT_NAMED) == 1) {
        printf("storage index %llu of ", told(expected, HUB_AT_GUID_NUMBER));
        say_hex(expected + HUB_AT_GUID_LOW, 16);
        printf("\n");
    } else {
        printf("no storage index\n");
    }
    fflush(stdout);
}

int put_write(struct put *p, const uint8_t *report_of_answer) {
    uint8_t report[HUB_REPORT_BYTES] = {0};
    p->id++;
    uint64_t number = ask_put(p, report_of_answer, report);
    if (number == HUB_OUTPUT_TOO_SHORT) {
        grow(p, "hub_ask_put refuses with 14, the buffer", &p->request, report);
        number = ask_put(p, report_of_answer, report);
    }
    if (number != HUB_DONE) {
        int status = say_unexpected(p, "hub_ask_put", number, report);
        return number == HUB_INPUT_TOO_LONG ? TOO_LARGE : status;
    }
    p->request.length = told_size(report, HUB_AT_LENGTH);
    if (!p->quiet) {
        say_written(p, report_of_answer);
    }
    return ENDED_WELL;
}

/* ---- the hub's side: the new store and the answer */

static uint64_t apply(struct put *p, const struct bytes *store, uint8_t *report) {
    return hub_put(store->at, store->length, p->request.at, p->request.length, p->guid_low, p->guid_high, p->new_store.at,
                   p->new_store.room, p->answer.at, p->answer.room, report, HUB_PUT_REPORT_BYTES);
}

/* Makes the call, and again while a buffer is too short. The length that is told is the new store's if its buffer is shorter than
   that, or else the answer's. An answer that is longer than the new store makes that one's buffer grow once more than it need, and
   then its own: so three times are enough. */
static uint64_t apply_with_room(struct put *p, const struct bytes *store, uint8_t *report) {
    uint64_t number = apply(p, store, report);
    for (int times = 0; times < 3 && number == HUB_OUTPUT_TOO_SHORT; times++) {
        if (told_size(report, HUB_AT_LENGTH) > p->new_store.room) {
            grow(p, "hub_put refuses with 14, the buffer for the new store", &p->new_store, report);
        } else {
            grow(p, "hub_put refuses with 14, the buffer for the answer", &p->answer, report);
        }
        number = apply(p, store, report);
    }
    return number;
}

int put_apply(struct put *p, const struct bytes *store) {
    uint8_t report[HUB_PUT_REPORT_BYTES] = {0};
    bytes_lend(&p->new_store, store->length);
    uint64_t number = apply_with_room(p, store, report);
    p->taken = number == HUB_DONE;
    if (number == HUB_OTHER_INDEX) {
        if (!p->quiet) {
            printf("put %llu: hub_put refuses with 15, the store has another storage index than the last answer\n",
                   (unsigned long long)p->id);
        }
        return ENDED_WELL;
    }
    if (number != HUB_DONE) {
        int status = say_unexpected(p, "hub_put", number, report);
        return number == HUB_TOO_MANY || number == HUB_INPUT_TOO_LONG ? FULL : status;
    }
    p->answer.length = told_size(report, HUB_AT_LENGTH);
    p->new_store.length = told_size(report, HUB_AT_STORE_LENGTH);
    return ENDED_WELL;
}

/* ---- the bench's side again */

int put_read(struct put *p) {
    uint8_t report[HUB_READ_PUT_REPORT_BYTES] = {0};
    uint64_t number = hub_read_put(p->answer.at, p->answer.length, report, sizeof report);
    if (number != HUB_DONE) {
        return say_unexpected(p, "hub_read_put", number, report);
    }
    if (hub_report_number(report, HUB_AT_ID) != p->id) {
        fprintf(stderr, "player: put %llu: the answer is to another put, with the id %llu\n", (unsigned long long)p->id,
                told(report, HUB_AT_ID));
        return REFUSED;
    }
    return ENDED_WELL;
}

void put_free(struct put *p) {
    bytes_free(&p->request);
    bytes_free(&p->answer);
    bytes_free(&p->new_store);
}
