/* The account of stored cases (replay.h). */
#include "replay.h"
#include "guarded.h"
#include "report.h"
#include "status.h"

#include <stdio.h>

static void say_bytes(const char *what, const uint8_t *at, size_t n) {
    printf("%s: ", what);
    say_hex(at, n);
    printf("\n");
}

/* What hub_read says of an answer. */
static void say_read(const struct bytes *answer) {
    uint8_t report[HUB_READ_REPORT_BYTES] = {0};
    uint64_t number = hub_read(answer->at, answer->length, report, sizeof report);
    if (number != HUB_DONE) {
        printf("hub_read: %llu, place %llu (%s)\n", (unsigned long long)number, told(report, HUB_AT_PLACE),
               hub_refusal_text(number));
        return;
    }
    printf("hub_read: 0, id %llu, mark %llu, elements %llu at %llu, knowledge at %llu of %llu bytes, storage index ",
           told(report, HUB_AT_ID), told(report, HUB_AT_PARTIAL),
           told(report, HUB_AT_COUNT), told(report, HUB_AT_ELEMENTS),
           told(report, HUB_AT_PLACE), told(report, HUB_AT_LENGTH));
    if (hub_report_number(report, HUB_AT_NAMED) == 1) {
        printf("%llu of ", told(report, HUB_AT_GUID_NUMBER));
        say_hex(report + HUB_AT_GUID_LOW, 16);
        printf("\n");
    } else {
        printf("null\n");
    }
}

/* What hub_read_put says of an answer. */
static void say_read_put(const struct bytes *answer) {
    uint8_t report[HUB_READ_PUT_REPORT_BYTES] = {0};
    uint64_t number = hub_read_put(answer->at, answer->length, report, sizeof report);
    if (number != HUB_DONE) {
        printf("hub_read_put: %llu, place %llu (%s)\n", (unsigned long long)number, told(report, HUB_AT_PLACE),
               hub_refusal_text(number));
        return;
    }
    printf("hub_read_put: 0, id %llu, knowledge at %llu of %llu bytes\n", told(report, HUB_AT_ID), told(report, HUB_AT_PLACE),
           told(report, HUB_AT_LENGTH));
}

/* What a call on guarded buffers gave, and whether it kept its promises. */
static int say_guarded(const struct stored *c, const char *call, const struct guarded *g) {
    printf("%s: %llu, input %llu, place %llu, length %llu (%s)\n", call, (unsigned long long)g->number,
           (unsigned long long)g->input, (unsigned long long)g->place, (unsigned long long)g->length, hub_refusal_text(g->number));
    if (g->broken != NULL) {
        fflush(stdout);
        fprintf(stderr, "player: line %zu: a promise is broken: %s\n", c->line, g->broken);
        return PROMISE_BROKEN;
    }
    return ENDED_WELL;
}

static int say_length(const struct stored *c) {
    struct guarded g = guarded_length(&c->first, &c->second, c->offered);
    printf("line %zu: store %zu bytes, request %zu bytes, offered %llu bytes\n", c->line, c->first.length, c->second.length,
           (unsigned long long)c->offered);
    return say_guarded(c, "hub_length", &g);
}

static int say_write(const struct stored *c) {
    struct guarded g = guarded_write(&c->first, &c->second, c->room);
    printf("line %zu: store %zu bytes, request %zu bytes, output %zu bytes\n", c->line, c->first.length, c->second.length,
           c->room);
    int status = say_guarded(c, "hub_write", &g);
    if (status == ENDED_WELL && g.number == HUB_DONE) {
        say_bytes("answer", g.answer.at, g.answer.length);
        say_read(&g.answer);
    }
    bytes_free(&g.answer);
    return status;
}

/* A GUID that is handed in as two numbers, as it is sent. */
static void say_guid(const uint64_t *guid) {
    uint8_t sent[16];
    for (size_t i = 0; i < sizeof sent; i++) {
        sent[i] = (uint8_t)(guid[i / 8] >> i % 8 * 8);
    }
    say_hex(sent, sizeof sent);
}

static int say_put(const struct stored *c) {
    struct guarded g = guarded_put(&c->first, &c->second, c->guid, c->new_room, c->room);
    printf("line %zu: store %zu bytes, put %zu bytes, hub's GUID ", c->line, c->first.length, c->second.length);
    say_guid(c->guid);
    printf(", new store %zu bytes, output %zu bytes\n", c->new_room, c->room);
    int status = say_guarded(c, "hub_put", &g);
    if (status == ENDED_WELL && g.number == HUB_DONE) {
        say_bytes("answer", g.answer.at, g.answer.length);
        say_bytes("new store", g.new_store.at, g.new_store.length);
        say_read_put(&g.answer);
    }
    bytes_free(&g.answer);
    bytes_free(&g.new_store);
    return status;
}

static int say_keep(const struct stored *c) {
    struct guarded g = guarded_keep(&c->first, &c->second, c->room);
    printf("line %zu: book %zu bytes, answer %zu bytes, new book %zu bytes\n", c->line, c->first.length, c->second.length, c->room);
    int status = say_guarded(c, "hub_keep", &g);
    if (status == ENDED_WELL && g.number == HUB_DONE) {
        say_bytes("new book", g.answer.at, g.answer.length);
    }
    bytes_free(&g.answer);
    return status;
}

/* What came of a call that writes a request or a put. */
static void say_written(const char *call, const char *what, uint64_t number, const struct bytes *out, const uint8_t *report) {
    printf("%s: %llu, input %llu, place %llu, length %llu (%s)\n", call, (unsigned long long)number, told(report, HUB_AT_INPUT),
           told(report, HUB_AT_PLACE), told(report, HUB_AT_LENGTH), hub_refusal_text(number));
    if (number == HUB_DONE) {
        say_bytes(what, out->at, told_size(report, HUB_AT_LENGTH));
    }
}

static void say_ask(const struct stored *c) {
    uint8_t report[HUB_REPORT_BYTES] = {0};
    struct bytes out = {NULL, 0, 0};
    bytes_lend(&out, c->room);
    uint64_t number = hub_ask(c->id, c->limit, c->first.at, c->first.length, c->second.at, c->second.length, out.at, out.room,
                              report, sizeof report);
    printf("line %zu: id %llu, limit %llu, filters %zu bytes, knowledge %zu bytes, output %zu bytes\n", c->line,
           (unsigned long long)c->id, (unsigned long long)c->limit, c->first.length, c->second.length, c->room);
    say_written("hub_ask", "request", number, &out, report);
    bytes_free(&out);
}

static void say_ask_put(const struct stored *c) {
    uint8_t report[HUB_REPORT_BYTES] = {0};
    struct bytes out = {NULL, 0, 0};
    bytes_lend(&out, c->room);
    uint64_t number = hub_ask_put(c->id, c->named, c->guid[0], c->guid[1], c->number, c->first.at, c->first.length, out.at,
                                  out.room, report, sizeof report);
    printf("line %zu: id %llu, expected storage index ", c->line, (unsigned long long)c->id);
    if (c->named != 0) {
        printf("%llu of ", (unsigned long long)c->number);
        say_guid(c->guid);
    } else {
        printf("null");
    }
    printf(", elements %zu bytes, output %zu bytes\n", c->first.length, c->room);
    say_written("hub_ask_put", "put", number, &out, report);
    bytes_free(&out);
}

static void say_element(const struct stored *c) {
    uint8_t report[HUB_REPORT_BYTES] = {0};
    uint64_t number = hub_element(c->kind, c->first.at, c->first.length, c->position, report, sizeof report);
    printf("line %zu: %s %zu bytes, position %llu\n", c->line, c->kind == HUB_IN_STORE ? "store" : "answer", c->first.length,
           (unsigned long long)c->position);
    printf("hub_element: %llu, place %llu, length %llu (%s)\n", (unsigned long long)number, told(report, HUB_AT_PLACE),
           told(report, HUB_AT_LENGTH), hub_refusal_text(number));
    if (number == HUB_DONE) {
        say_bytes("element", c->first.at + told_size(report, HUB_AT_PLACE), told_size(report, HUB_AT_LENGTH));
    }
}

int replay_case(const struct stored *c) {
    switch (c->call) {
    case CALL_LENGTH:
        return say_length(c);
    case CALL_WRITE:
        return say_write(c);
    case CALL_ASK:
        say_ask(c);
        break;
    case CALL_READ:
        printf("line %zu: answer %zu bytes\n", c->line, c->first.length);
        say_read(&c->first);
        break;
    case CALL_ELEMENT:
        say_element(c);
        break;
    case CALL_PUT:
        return say_put(c);
    case CALL_KEEP:
        return say_keep(c);
    case CALL_ASK_PUT:
        say_ask_put(c);
        break;
    case CALL_READ_PUT:
        printf("line %zu: answer %zu bytes\n", c->line, c->first.length);
        say_read_put(&c->first);
        break;
    }
    return ENDED_WELL;
}

static int one_case(const struct stored *c, void *with) {
    (void)with;
    return replay_case(c);
}

int replay(const char *name) {
    return stored_each(name, one_case, NULL);
}
