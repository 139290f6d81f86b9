/* Puts between talks: a bench writes one, the hub takes it, the bench reads the answer, and then asks for what it lacks. The store
   that is behind it is the model's (model_put.h), and so are the refusals: another storage index than the store's is expected, no
   serial number is left, there are too many elements, or one of the buffers is too short. */
#include "model_put.h"
#include "talk.h"

#include <string.h>

static struct block store_block, put_block, new_block_lent, out_block;

void begin_puts(void) {
    store_block = new_block(ROOM);
    put_block = new_block(ROOM);
    new_block_lent = new_block(ROOM);
    out_block = new_block(ROOM);
}

/* ---- the bench writes a put */

/* The storage index that the bench expects: the store's, or at times another. Whether it is the store's. */
static int choose_index(struct talk *t, uint64_t *named, struct made_name *index) {
    unsigned i = made_index(&t->maker);
    int right = !luck_one_in(&t->luck, 6);
    *named = i < t->maker.elements;
    memset(index, 0, sizeof *index);
    if (*named) {
        *index = t->maker.ids[i];
    }
    if (!right && *named && luck_one_in(&t->luck, 2)) {
        index->number ^= 1;
    } else if (!right) {
        *named = !*named;
    }
    return right;
}

/* The put, in the talk's request: elements of the maker, which stand in the text. */
static int write_put(struct talk *t, struct text *elements) {
    struct made_name index;
    uint64_t named, number;
    int right = choose_index(t, &named, &index);
    size_t room = elements->length + 80;
    const uint8_t *e = lend_copy(store_block, elements->at, elements->length);
    uint8_t *out = lend_filled(put_block, room);
    number = side_of(t)->ask_put(t->id, named, hub_report_number(index.guid, 0), hub_report_number(index.guid, 8), index.number, e,
                                 elements->length, out, room, t->report, sizeof t->report);
    text_clear(&t->request);
    if (number != 0 || !kept_beside(put_block, room, told(t, HUB_AT_LENGTH))) {
        fail(t, "the put is not written, or bytes beside it are changed");
    }
    text_add(&t->request, out, (size_t)told(t, HUB_AT_LENGTH));
    return right;
}

/* ---- the hub takes it */

/* Makes the call: its number. What it has no right to touch is as it was. */
static uint64_t put_with(struct talk *t, const struct text *put) {
    const uint8_t *s = lend_copy(store_block, t->store.at, t->store.length), *q = lend_copy(put_block, put->at, put->length);
    uint8_t *new_store = lend_filled(new_block_lent, t->new_room), *out = lend_filled(out_block, t->room);
    uint64_t number = side_of(t)->put(s, t->store.length, q, put->length, hub_report_number(t->hub, 0),
                                      hub_report_number(t->hub, 8), new_store, t->new_room, out, t->room, t->report,
                                      sizeof t->report);
    if (!kept_beside(new_block_lent, t->new_room, number == 0 ? told(t, HUB_AT_STORE_LENGTH) : 0) ||
        !kept_beside(out_block, t->room, number == 0 ? told(t, HUB_AT_LENGTH) : 0)) {
        fail(t, "a put changed bytes beside what it wrote");
    }
    all.refused_puts += number != 0;
    return number;
}

/* A damaged put: what comes of it is not used. */
static void put_damaged(struct talk *t) {
    struct text put = {0};
    text_add(&put, t->request.at, t->request.length);
    damage(&t->luck, &put);
    t->new_room = t->room = t->store.length + put.length + 65536;
    put_with(t, &put);
    text_free(&put);
}

/* The whole answer: an empty package, the sub-response, and the knowledge of every serial number that is now stored. */
static void spell_answer(struct text *to, uint64_t id, const struct text *knowledge) {
    static const uint8_t front[] = {0x0C, 0x00, 0x0B, 0x00, 0x9D, 0xCF, 0x29, 0xF3, 0x39, 0x94, 0x06,
                                    0x9B, 0x16, 0x03, 0x02, 0x00, 0x00, 0xAC, 0x02, 0x00, 0x55};
    struct text data = {0};
    text_clear(to);
    text_add(to, front, sizeof front);
    plain_compact(&data, id);
    plain_compact(&data, 5);
    text_byte(&data, 0);
    plain_start(to, 0x41, 1, data.length);
    text_add(to, data.at, data.length);
    text_free(&data);
    text_add(to, knowledge->at, knowledge->length);
    plain_end(to, 0x41);
    plain_end(to, 0x62);
}

/* Exactly the room that both need, or a byte too few for one of them, which is the refusal and the length that it tells. */
static void lend_for_put(struct talk *t, const struct put_model *p, const struct text *answer, uint64_t *refusal, size_t *length) {
    uint64_t shorter = luck_below(&t->luck, 8);
    t->new_room = p->store.length - (shorter == 0);
    t->room = answer->length - (shorter == 1);
    *refusal = shorter < 2 ? HUB_OUTPUT_TOO_SHORT : HUB_DONE;
    *length = shorter == 0 ? p->store.length : answer->length;
}

/* Of a put that the model takes: whether it is taken, or refused for want of room. */
static int hold_put(struct talk *t, const struct put_model *p, const struct text *answer) {
    uint64_t refusal;
    size_t length;
    lend_for_put(t, p, answer, &refusal, &length);
    if (put_with(t, &t->request) != refusal || told(t, HUB_AT_LENGTH) != length) {
        fail(t, "number or length is not the model's");
    }
    if (refusal != 0) {
        return 0;
    }
    if (told(t, HUB_AT_STORE_LENGTH) != p->store.length ||
        memcmp(lent(new_block_lent, t->new_room), p->store.at, p->store.length) != 0) {
        fail(t, "the new store is not the model's");
    }
    if (memcmp(lent(out_block, t->room), answer->at, length) != 0) {
        fail(t, "the answer to the put is not the model's");
    }
    return 1;
}

/* ---- the bench reads the answer, and asks again */

static void hold_put_answer(struct talk *t, const struct text *answer, const struct text *knowledge) {
    const uint8_t *a = lend_copy(put_block, answer->at, answer->length);
    if (side_of(t)->read_put(a, answer->length, t->report, sizeof t->report) != 0 || told(t, HUB_AT_ID) != t->id) {
        fail(t, "the answer to the put does not read, or the id is another");
    }
    if (told(t, HUB_AT_LENGTH) != knowledge->length || told(t, HUB_AT_PLACE) != answer->length - knowledge->length - 4) {
        fail(t, "the knowledge in the answer to the put is not where it stands");
    }
}

/* Whether what is wanted is what entered, each by itself, and nothing else: what enters gets numbers of its own, and what else was
   in a group is known. It is wanted in row order and not in the store's, so that what entered is counted. */
static int wants_entered(const struct model *model, const struct put_model *p) {
    unsigned i, entered = 0, members = model->begins[model->count];
    for (i = 0; i < p->count; i++) {
        entered += p->handed[i] > 0;
    }
    for (i = 0; i < members; i++) {
        if (p->handed[model->members[i]] == 0) {
            return 0;
        }
    }
    return entered == members && entered == model->count;
}

/* The bench knows what it was told before the put, and asks with that. */
static void begin_next(struct talk *t, const struct put_model *p, const struct known *known) {
    struct maker *m = &t->maker;
    take_put(p, m, t->hub);
    text_clear(&t->store);
    text_add(&t->store, p->store.at, p->store.length);
    text_clear(&t->first);
    text_add(&t->first, t->told.at, t->told.length);
    memcpy(m->range, known->ranges, known->count * sizeof *known->ranges);
    m->said = m->ranges = known->count;
    begin_model(&t->model, m);
    if (t->knows_all && !wants_entered(&t->model, p)) {
        fail(t, "a bench that knew everything lacks something else than what entered");
    }
    all.exact += (uint64_t)t->knows_all;
}

/* A put that the model takes. */
static int taken(struct talk *t, const struct put_model *p, const struct known *known) {
    static struct known stored;
    static struct text knowledge, answer;
    static struct maker after;
    after = t->maker;
    take_put(p, &after, t->hub);
    known_all(&after, &stored);
    spell_answer_knowledge(&stored, &knowledge);
    spell_answer(&answer, t->id, &knowledge);
    if (!hold_put(t, p, &answer)) {
        return 0;
    }
    hold_put_answer(t, &answer, &knowledge);
    all.puts++;
    all.entered += t->maker.entering.count;
    begin_next(t, p, known);
    return 1;
}

/* So many ranges may be known at the beginning of a talk. */
#define MOST_FIRST 256u

/* A put that the model refuses, with room for all or with none. */
static void refused(struct talk *t, unsigned refusal) {
    t->new_room = t->room = luck_one_in(&t->luck, 2) ? 0 : t->store.length + t->request.length + 65536;
    if (put_with(t, &t->request) != refusal || told(t, HUB_AT_INPUT) != 0 || told(t, HUB_AT_PLACE) != 0 ||
        told(t, HUB_AT_LENGTH) != 0) {
        fail(t, "the put is not refused as by the model");
    }
}

int put_between(struct talk *t) {
    static struct put_model p;
    static struct text elements;
    static struct known known;
    known_after(&t->model, t->model.sent, &known);
    if (known.count > MOST_FIRST) {
        return 0;
    }
    t->call = PUT;
    t->id = luck_number(&t->luck);
    text_clear(&elements);
    make_elements(&t->maker, &elements);
    begin_put_model(&p, &t->maker, &t->store, &elements, t->hub);
    if (!write_put(t, &elements)) {
        p.refusal = HUB_OTHER_INDEX;
    }
    if (luck_one_in(&t->luck, 3)) {
        put_damaged(t);
    }
    if (p.refusal == 0) {
        return taken(t, &p, &known);
    }
    refused(t, p.refusal);
    return 0;
}
