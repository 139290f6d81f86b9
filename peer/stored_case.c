/* A stored case as a case of the drivers (stored_case.h). */
#include "stored_case.h"

static struct text lent_text(const struct bytes *b) {
    struct text t;
    t.at = b->at;
    t.length = t.room = b->length;
    return t;
}

struct one_case case_of(const struct stored *s) {
    /* in the order of enum stored_call */
    static const enum call calls[] = {LENGTH, WRITE, ASK, READ, FIND, PUT, ASK_PUT, READ_PUT, KEEP};
    struct one_case c;
    c.call = calls[s->call];
    c.offered = s->offered;
    c.id = s->id;
    c.limit = s->limit;
    c.kind = s->kind;
    c.position = s->position;
    c.named = s->named;
    c.number = s->number;
    c.guid[0] = s->guid[0];
    c.guid[1] = s->guid[1];
    c.first = lent_text(&s->first);
    c.second = lent_text(&s->second);
    c.room = s->room;
    c.new_room = s->new_room;
    c.report = 0;
    return c;
}
