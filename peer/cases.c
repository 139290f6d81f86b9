/* Cases, run by the library and by the peer. */
#include "cases.h"
#include "lend.h"
#include "pair.h"

#include <string.h>

#define LONGEST_REPORT 128u

static struct block first_block, second_block, out_blocks[2], new_blocks[2], report_blocks[2];

void begin_cases(size_t longest) {
    unsigned i;
    first_block = new_block(longest);
    second_block = new_block(longest);
    for (i = 0; i < 2; i++) {
        out_blocks[i] = new_block(longest + 65536);
        new_blocks[i] = new_block(longest + 65536);
        report_blocks[i] = new_block(LONGEST_REPORT);
    }
    begin_pairs(longest + 65536, LONGEST_REPORT);
}

static uint64_t call_for_put(const struct side *side, const struct one_case *c, const struct handed *h) {
    switch (c->call) {
    case PUT:
        return side->put(h->first, c->first.length, h->second, c->second.length, c->guid[0], c->guid[1], h->new_store, c->new_room,
                         h->out, c->room, h->report, c->report);
    case ASK_PUT:
        return side->ask_put(c->id, c->named, c->guid[0], c->guid[1], c->number, h->first, c->first.length, h->out, c->room,
                             h->report, c->report);
    default:
        return side->read_put(h->first, c->first.length, h->report, c->report);
    }
}

static uint64_t call(const struct side *side, const struct one_case *c, const struct handed *h) {
    switch (c->call) {
    case LENGTH:
        return side->length(h->first, c->first.length, h->second, c->second.length, c->offered, h->report, c->report);
    case WRITE:
        return side->write(h->first, c->first.length, h->second, c->second.length, h->out, c->room, h->report, c->report);
    case ASK:
        return side->ask(c->id, c->limit, h->first, c->first.length, h->second, c->second.length, h->out, c->room, h->report,
                         c->report);
    case READ:
        return side->read(h->first, c->first.length, h->report, c->report);
    case FIND:
        return side->element(c->kind, h->first, c->first.length, c->position, h->report, c->report);
    case KEEP:
        return side->keep(h->first, c->first.length, h->second, c->second.length, h->out, c->room, h->report, c->report);
    default:
        return call_for_put(side, c, h);
    }
}

static void say(const char *who, uint64_t number, const uint8_t *report, size_t n) {
    size_t i;
    printf("  %s: number %llu, report", who, (unsigned long long)number);
    for (i = 0; i + 8 <= n; i += 8) {
        printf(" %llu", (unsigned long long)hub_report_number(report, i));
    }
    printf("\n");
}

/* Whether what the library left of a buffer behind what it wrote is as it was. How much it wrote is the report's number at a
   place; if it wrote and the report has no such number, nothing can be held. */
static int kept_behind(struct block b, size_t room, int wrote, const uint8_t *report, size_t report_len, size_t at) {
    size_t from = 0;
    if (wrote && report_len < at + 8) {
        return 1;
    }
    if (wrote) {
        from = (size_t)hub_report_number(report, at);
    }
    return from <= room && kept_from(b, room, from);
}

/* Whether nothing before a buffer is changed by either. */
static int both_kept_before(const struct block *blocks, size_t room) {
    return kept_before(blocks[0], room) && kept_before(blocks[1], room);
}

/* The first words of what is not as it should be, or NULL. */
static const char *differs(const struct one_case *c, const uint64_t *numbers, const struct handed *h) {
    int done = numbers[0] == 0;
    if (numbers[0] != numbers[1]) {
        return "the numbers differ";
    }
    if (!same_bytes(h[0].report, h[1].report, c->report)) {
        return "the reports differ";
    }
    if (!same_bytes(h[0].out, h[1].out, c->room)) {
        return "the outputs differ";
    }
    if (!same_bytes(h[0].new_store, h[1].new_store, c->new_room)) {
        return "the new stores differ";
    }
    if (!both_kept_before(out_blocks, c->room) || !both_kept_before(new_blocks, c->new_room) ||
        !both_kept_before(report_blocks, c->report)) {
        return "bytes before the output, the new store or the report are changed";
    }
    if (!same_bytes(h[0].first, c->first.at, c->first.length) || !same_bytes(h[0].second, c->second.at, c->second.length)) {
        return "an input is changed";
    }
    if (!kept_behind(out_blocks[0], c->room, done && writes(c->call), h[0].report, c->report, HUB_AT_LENGTH) ||
        !kept_behind(new_blocks[0], c->new_room, done && c->call == PUT, h[0].report, c->report, HUB_AT_STORE_LENGTH)) {
        return "bytes past what was written are changed";
    }
    return NULL;
}

static void tell_outcome(struct outcome *o, const struct one_case *c, uint64_t number, const uint8_t *report) {
    o->number = number;
    o->input = c->report < 24 ? 0 : hub_report_number(report, HUB_AT_INPUT);
    o->place = c->report < 24 ? 0 : hub_report_number(report, HUB_AT_PLACE);
    o->length = c->report < 24 ? 0 : hub_report_number(report, HUB_AT_LENGTH);
}

int agree(const struct one_case *c, struct outcome *peer) {
    struct handed h[2];
    uint64_t numbers[2];
    const char *what;
    unsigned i;
    for (i = 0; i < 2; i++) {
        h[i].first = lend_copy(first_block, c->first.at, c->first.length);
        h[i].second = lend_copy(second_block, c->second.at, c->second.length);
        h[i].out = lend_filled(out_blocks[i], c->room);
        h[i].new_store = lend_filled(new_blocks[i], c->new_room);
        h[i].report = lend_filled(report_blocks[i], c->report);
    }
    for (i = 0; i < 2; i++) {
        numbers[i] = call(&sides[i], c, &h[i]);
    }
    tell_outcome(peer, c, numbers[1], h[1].report);
    what = differs(c, numbers, h);
    if (what == NULL && answers(c->call)) {
        what = pair_differs(c, numbers[0], h);
    }
    if (what != NULL) {
        printf("%s\n", what);
        say("library", numbers[0], h[0].report, c->report);
        say("peer", numbers[1], h[1].report, c->report);
    }
    return what == NULL;
}

/* ---- a line */

static void write_hex(FILE *to, const struct text *t) {
    size_t i;
    for (i = 0; i < t->length; i++) {
        fprintf(to, "%02x", t->at[i]);
    }
    fprintf(to, t->length == 0 ? "- " : " ");
}

/* A GUID, its bytes as they are sent. */
static void write_guid(FILE *to, const uint64_t *guid) {
    unsigned i;
    for (i = 0; i < 16; i++) {
        fprintf(to, "%02x", (unsigned)(guid[i / 8] >> i % 8 * 8 & 255));
    }
    fprintf(to, " ");
}

/* What stands before the bytes of a case. */
static void write_front(FILE *to, const struct one_case *c) {
    static const char *const names[] = {"length", "write", "ask", "read", "element", "put", "ask_put", "read_put", "keep"};
    fprintf(to, "%s ", c->call == FIND && c->kind != 0 ? "received" : names[c->call]);
    if (c->call == ASK) {
        fprintf(to, "%llu %llu ", (unsigned long long)c->id, (unsigned long long)c->limit);
    }
    if (c->call == ASK_PUT) {
        fprintf(to, "%llu %d ", (unsigned long long)c->id, c->named != 0);
        write_guid(to, c->guid);
        fprintf(to, "%llu ", (unsigned long long)c->number);
    }
}

void write_case(FILE *to, const struct one_case *c) {
    write_front(to, c);
    write_hex(to, &c->first);
    if (takes_two(c->call)) {
        write_hex(to, &c->second);
    }
    if (c->call == PUT) {
        write_guid(to, c->guid);
        fprintf(to, "%zu ", c->new_room);
    }
    if (c->call == LENGTH) {
        fprintf(to, "%llu", (unsigned long long)c->offered);
    }
    if (writes(c->call)) {
        fprintf(to, "%zu", c->room);
    }
    if (answers(c->call)) {
        fprintf(to, " 1792 2048");
    }
    if (c->call == FIND) {
        fprintf(to, "%llu", (unsigned long long)c->position);
    }
    fprintf(to, "\n");
}
