/* The model: everything is gone through from the front, each time anew. */
#include "model.h"

#include <stdlib.h>
#include <string.h>

static int same_made(const struct made_name *a, const struct made_name *b) {
    return a->number == b->number && memcmp(a->guid, b->guid, 16) == 0;
}

static int matches(const struct maker *made, const struct made_filter *f, unsigned element) {
    unsigned i;
    if (f->kind != 6) {
        return f->kind == 1 || f->type == made->types[element];
    }
    for (i = 0; i < f->count; i++) {
        if (same_made(&f->ids[i], &made->ids[element])) {
            return 1;
        }
    }
    return 0;
}

static int left_in(const struct maker *made, unsigned element) {
    unsigned i, in = 1;
    for (i = 0; i < made->filters; i++) {
        if (matches(made, &made->filter[i], element)) {
            in = made->filter[i].operation;
        }
    }
    return (int)in;
}

static int is_known(const struct maker *made, const struct made_name *serial) {
    unsigned i;
    for (i = 0; i < made->ranges; i++) {
        const struct made_range *r = &made->range[i];
        if (memcmp(r->guid, serial->guid, 16) == 0 && r->from <= serial->number && serial->number <= r->to) {
            return 1;
        }
    }
    return 0;
}

/* Whether an element's type is of this rank: 1, 2, 3 and 4, and 5 for what is none of these. */
static int has_rank(const struct maker *made, unsigned element, unsigned rank) {
    uint64_t type = made->types[element];
    return rank < 5 ? type == rank : type == 0 || type > 4;
}

/* The positions of the elements in row order: the index before the bulk. For each rank in turn the store is gone through anew. */
static void in_row_order(const struct maker *made, unsigned *positions) {
    unsigned rank, i, n = 0;
    for (rank = 1; rank <= 5; rank++) {
        for (i = 0; i < made->elements; i++) {
            if (has_rank(made, i, rank)) {
                positions[n++] = i;
            }
        }
    }
}

const struct made_name *serial_of_group(const struct model *model, unsigned group) {
    return &model->made->serials[model->members[model->begins[group]]];
}

/* Whether a group with this serial number is among those that are wanted. */
static int is_listed(const struct model *model, const struct made_name *serial) {
    unsigned i;
    for (i = 0; i < model->count; i++) {
        if (same_made(serial_of_group(model, i), serial)) {
            return 1;
        }
    }
    return 0;
}

/* Lists all elements with this serial number as one more group, if the filters let one of them in. The store is looked at whole. */
static void list_group(struct model *model, const unsigned *positions, const struct made_name *serial) {
    const struct maker *made = model->made;
    unsigned i, end = model->begins[model->count];
    int in = 0;
    for (i = 0; i < made->elements; i++) {
        if (same_made(&made->serials[positions[i]], serial)) {
            model->members[end++] = positions[i];
            in = in || left_in(made, positions[i]);
        }
    }
    if (in) {
        model->begins[++model->count] = end;
    }
}

/* A group that is wanted is listed at its first member; at its others it is there already. */
void begin_model(struct model *model, const struct maker *made) {
    unsigned positions[MOST_MADE], i;
    model->made = made;
    model->count = model->sent = model->begins[0] = 0;
    in_row_order(made, positions);
    for (i = 0; i < made->elements; i++) {
        const struct made_name *serial = &made->serials[positions[i]];
        if (!is_known(made, serial) && !is_listed(model, serial)) {
            list_group(model, positions, serial);
        }
    }
}

static int in_order(const void *a, const void *b) {
    const struct made_range *x = a, *y = b;
    int by_guid = memcmp(x->guid, y->guid, 16);
    if (by_guid != 0) {
        return by_guid;
    }
    return x->from < y->from ? -1 : x->from > y->from;
}

/* Whether the next range in order goes on with this one; nothing follows 2^64-1. */
static int goes_on(const struct made_range *r, const struct made_range *next) {
    return memcmp(r->guid, next->guid, 16) == 0 && (r->to == UINT64_MAX || next->from <= r->to + 1);
}

static void join(struct known *known) {
    unsigned i, n = 0;
    for (i = 0; i < known->count; i++) {
        struct made_range r = known->ranges[i];
        if (n > 0 && goes_on(&known->ranges[n - 1], &r)) {
            if (r.to > known->ranges[n - 1].to) {
                known->ranges[n - 1].to = r.to;
            }
        } else {
            known->ranges[n++] = r;
        }
    }
    known->count = n;
}

static void add_number(struct known *known, const struct made_name *serial) {
    struct made_range *r = &known->ranges[known->count++];
    memcpy(r->guid, serial->guid, 16);
    r->from = r->to = serial->number;
}

static void put_in_order(struct known *known) {
    qsort(known->ranges, known->count, sizeof *known->ranges, in_order);
    join(known);
}

void known_after(const struct model *model, unsigned n, struct known *known) {
    const struct maker *made = model->made;
    unsigned i;
    memcpy(known->ranges, made->range, made->ranges * sizeof *made->range);
    known->count = made->ranges;
    for (i = 0; i < n; i++) {
        add_number(known, serial_of_group(model, i));
    }
    put_in_order(known);
}

void known_all(const struct maker *made, struct known *known) {
    unsigned i;
    known->count = 0;
    for (i = 0; i < made->elements; i++) {
        add_number(known, &made->serials[i]);
    }
    put_in_order(known);
}

static size_t compact_bytes(uint64_t x) {
    size_t n = 1;
    while (n < 8 && x >> 7 * n != 0) {
        n++;
    }
    return n == 8 ? 9 : n;
}

static size_t index_bytes(const struct model *model) {
    unsigned i = made_index(model->made);
    uint64_t n = model->made->ids[i < model->made->elements ? i : 0].number;
    if (i == model->made->elements) {
        return 1;
    }
    return n < 0x20 ? 17 : n < 0x400 ? 18 : n < 0x20000 ? 19 : 21;
}

static size_t known_bytes(const struct known *known) {
    size_t n = known->count == 0 ? 3 : 28;
    unsigned i;
    for (i = 0; i < known->count; i++) {
        n += 18 + compact_bytes(known->ranges[i].from) + compact_bytes(known->ranges[i].to);
    }
    return n;
}

uint64_t groups_bytes(const struct model *model, unsigned k) {
    uint64_t n = 0;
    unsigned i;
    for (i = model->begins[model->sent]; i < model->begins[model->sent + k]; i++) {
        n += model->made->lengths[model->members[i]];
    }
    return n;
}

size_t length_with(const struct model *model, uint64_t id, unsigned k) {
    static struct known known;
    known_after(model, model->sent + k, &known);
    return 36 + compact_bytes(id) + index_bytes(model) + (size_t)groups_bytes(model, k) + known_bytes(&known);
}

unsigned page_under(const struct model *model, uint64_t id, uint64_t limit, size_t room, int *refused) {
    unsigned left = model->count - model->sent, least = left > 0, k = least;
    *refused = length_with(model, id, least) > room;
    while (!*refused && k < left && groups_bytes(model, k + 1) <= limit && length_with(model, id, k + 1) <= room) {
        k++;
    }
    return k;
}
