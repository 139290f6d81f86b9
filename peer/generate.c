/* Cases that a seed determines. */
#include "generate.h"
#include "hub.h"
#include "peer.h"

/* ---- what a call is lent */

/* Mostly as long as what a call tells. */
static size_t some_report(struct luck *l, enum call call) {
    static const size_t lengths[] = {24, 24, 24, 88, 88, 0, 8, 23, 25, 31, 32, 33, 87, 89, 100};
    if ((call == READ || call == PUT || call == READ_PUT) && !luck_one_in(l, 4)) {
        return call == READ ? HUB_READ_REPORT_BYTES : HUB_PUT_REPORT_BYTES;
    }
    return lengths[luck_below(l, sizeof lengths / sizeof *lengths)];
}

/* The length that a refusal says is needed. */
static size_t needed_by(uint64_t number, const uint8_t *report) {
    return number == HUB_OUTPUT_TOO_SHORT ? (size_t)hub_report_number(report, HUB_AT_LENGTH) : 0;
}

/* A put that is refused touches no buffer, so that the peer may be told of room for a new store where there is none. */
static size_t put_needs(const struct one_case *c, size_t new_room) {
    uint8_t report[HUB_REPORT_BYTES];
    uint64_t number = peer_put(c->first.at, c->first.length, c->second.at, c->second.length, c->guid[0], c->guid[1], NULL,
                               new_room, NULL, 0, report, sizeof report);
    return needed_by(number, report);
}

size_t new_room_needed(const struct one_case *c) {
    return put_needs(c, 0);
}

size_t room_needed(const struct one_case *c) {
    const struct text *a = &c->first, *b = &c->second;
    uint8_t report[HUB_REPORT_BYTES];
    uint64_t number;
    switch (c->call) {
    case LENGTH:
    case WRITE:
        number = peer_length(a->at, a->length, b->at, b->length, 0, report, sizeof report);
        break;
    case ASK:
        number = peer_ask(c->id, c->limit, a->at, a->length, b->at, b->length, NULL, 0, report, sizeof report);
        break;
    case ASK_PUT:
        number = peer_ask_put(c->id, c->named, c->guid[0], c->guid[1], c->number, a->at, a->length, NULL, 0, report, sizeof report);
        break;
    case KEEP:
        number = peer_keep(a->at, a->length, b->at, b->length, NULL, 0, report, sizeof report);
        break;
    default:
        return put_needs(c, SIZE_MAX);
    }
    return needed_by(number, report);
}

/* How long the answer is with any of the pages, up to the one for so many bytes; the one that is needed where there is none. */
static size_t some_page(struct luck *l, const struct one_case *c, size_t needed, size_t most) {
    const struct text *a = &c->first, *b = &c->second;
    uint64_t offered = needed + luck_below(l, most - needed + 1);
    uint8_t report[HUB_REPORT_BYTES];
    uint64_t number = peer_length(a->at, a->length, b->at, b->length, offered, report, sizeof report);
    return number == 0 ? (size_t)hub_report_number(report, HUB_AT_LENGTH) : needed;
}

/* As long as the smallest page needs, or the one thing that is written; one less, some more, much more, or any; or as any page is
   long, and one byte more and less. */
static size_t some_room(struct luck *l, const struct one_case *c, size_t needed) {
    size_t page, much = needed + c->first.length + c->second.length;
    switch (luck_below(l, answers(c->call) ? 10 : 8)) {
    case 0:
        return needed;
    case 1:
        return needed > 0 ? needed - 1 : 0;
    case 2:
    case 3:
        return needed + (size_t)luck_below(l, 200);
    case 4:
        return (size_t)luck_below(l, needed + 10);
    case 8:
    case 9:
        page = some_page(l, c, needed, much);
        return page + (size_t)luck_below(l, 3) - (page > 0);
    default:
        return much + (size_t)luck_below(l, 700);
    }
}

/* What is offered for an answer: as long as an output, or longer than any. */
static uint64_t some_offer(struct luck *l, const struct one_case *c) {
    switch (luck_below(l, 6)) {
    case 0:
        return UINT64_MAX;
    case 1:
        return luck_number(l);
    default:
        return some_room(l, c, room_needed(c));
    }
}

/* ---- making cases */

/* A package as a store, and its elements alone, without start, zero byte and end. */
static void as_store(struct text *t, const struct text *package) {
    text_add(t, package->at, package->length);
}

static void as_elements(struct text *t, const struct text *package) {
    text_add(t, package->at + 3, package->length - 4);
}

/* What has elements: made of decisions, or at times of a package with as many as may be. */
static void fill_one(struct maker *m, struct text *t, void (*make)(struct maker *, struct text *),
                     void (*around)(struct text *, const struct text *)) {
    if (luck_one_in(&m->luck, 400)) {
        struct text many = {0};
        make_many(m, &many);
        around(t, &many);
        text_free(&many);
    } else {
        make(m, t);
    }
}

static void fill_answer(struct maker *m, struct text *store, struct text *request) {
    if (luck_one_in(&m->luck, 300)) {
        make_full(m, store, request);
        return;
    }
    fill_one(m, store, make_store, as_store);
    make_request(m, request);
}

static void set_guid(struct one_case *c, const uint8_t *guid) {
    c->guid[0] = hub_report_number(guid, 0);
    c->guid[1] = hub_report_number(guid, 8);
}

/* A store, a put into it, and the hub's GUID. */
static void fill_put(struct maker *m, struct one_case *c) {
    uint8_t guid[16];
    if (luck_one_in(&m->luck, 100)) {
        make_many_put(m, &c->first, &c->second, guid);
    } else {
        m->high = luck_one_in(&m->luck, 6);
        make_store(m, &c->first);
        make_put(m, &c->second);
        make_hub(m, guid);
    }
    set_guid(c, guid);
}

/* A book and an answer that is kept in it. */
static void fill_keep(struct maker *m, struct text *book, struct text *answer) {
    if (luck_one_in(&m->luck, 40)) {
        make_many_keep(m, book, answer);
    } else {
        make_keep(m, book, answer);
    }
}

uint32_t fill_case(struct one_case *c, uint64_t seed, uint32_t spoiled) {
    static struct maker m;
    begin_making(&m, seed, spoiled);
    text_clear(&c->first);
    text_clear(&c->second);
    switch (c->call) {
    case LENGTH:
    case WRITE:
        fill_answer(&m, &c->first, &c->second);
        break;
    case ASK:
        make_filters(&m, &c->first);
        if (!luck_one_in(&m.luck, 5)) {
            make_knowledge(&m, &c->second, 12);
        }
        break;
    case PUT:
        fill_put(&m, c);
        break;
    case ASK_PUT:
        fill_one(&m, &c->first, make_elements, as_elements);
        break;
    case READ_PUT:
        fill_one(&m, &c->first, make_put_answer, plain_put_answer);
        break;
    case KEEP:
        fill_keep(&m, &c->first, &c->second);
        break;
    default:
        if (c->call == FIND && c->kind == 0) {
            fill_one(&m, &c->first, make_store, as_store);
        } else {
            fill_one(&m, &c->first, make_answer, plain_answer);
        }
        break;
    }
    return m.decisions;
}

/* What is handed to ASK_PUT beside the elements: at times a number that has no form. */
static void choose_expected(struct luck *l, struct one_case *c) {
    static const uint64_t named[] = {0, 0, 1, 1, 2, UINT64_MAX};
    c->named = named[luck_below(l, 6)];
    c->number = luck_one_in(l, 8) ? luck_number(l) : luck_number(l) & UINT32_MAX;
    c->guid[0] = luck_number(l);
    c->guid[1] = luck_number(l);
}

static void choose_call(struct luck *l, struct one_case *c) {
    static const enum call calls[] = {LENGTH, LENGTH, WRITE, WRITE, WRITE, WRITE, WRITE,   WRITE,   ASK,
                                      READ,   READ,   FIND,  PUT,   PUT,   PUT,   PUT,     ASK_PUT, READ_PUT};
    static const uint64_t kinds[] = {0, 0, 1, 1, 2, UINT64_MAX};
    c->call = calls[luck_below(l, sizeof calls / sizeof *calls)];
    c->id = luck_number(l);
    c->limit = luck_one_in(l, 3) ? UINT64_MAX : luck_number(l);
    c->kind = kinds[luck_below(l, 6)];
    c->position = luck_one_in(l, 6) ? luck_number(l) : luck_one_in(l, 6) ? luck_below(l, 260) : luck_below(l, 5);
    choose_expected(l, c);
}

void lend_rooms(struct luck *l, struct one_case *c) {
    c->report = some_report(l, c->call);
    c->room = writes(c->call) ? some_room(l, c, room_needed(c)) : 0;
    c->offered = c->call == LENGTH ? some_offer(l, c) : 0;
    c->new_room = c->call == PUT ? some_room(l, c, new_room_needed(c)) : 0;
    if ((c->call == ASK || c->call == ASK_PUT) && c->room > 60000) {
        c->room = 60000;
    }
}

void make_inputs(struct luck *l, struct one_case *c, uint64_t seed, enum way way) {
    uint32_t decisions = fill_case(c, seed, NOT_SPOILED);
    struct text *input;
    if (way == SPOILED && decisions > 0) {
        fill_case(c, seed, (uint32_t)luck_below(l, decisions));
    } else if (way == DAMAGED || way == CUT) {
        input = c->second.length > 0 && luck_one_in(l, 2) ? &c->second : &c->first;
        if (way == DAMAGED) {
            damage(l, input);
        } else {
            input->length = (size_t)luck_below(l, input->length + 1);
        }
    }
}

/* A third is valid, a third nearly valid, and a third damaged; the driver cuts by itself. */
void make_case(struct luck *l, struct one_case *c) {
    uint64_t seed = luck_next(l);
    enum way way = (enum way)luck_below(l, 3);
    choose_call(l, c);
    make_inputs(l, c, seed, way);
    lend_rooms(l, c);
}

/* The same ways; where both inputs are damaged, the book's fault is told. */
void make_keep_case(struct luck *l, struct one_case *c) {
    uint64_t seed = luck_next(l);
    enum way way = (enum way)luck_below(l, 3);
    c->call = KEEP;
    make_inputs(l, c, seed, way);
    if (way == DAMAGED && luck_one_in(l, 4)) {
        damage(l, &c->first);
    }
    lend_rooms(l, c);
}
