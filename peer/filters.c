/* Filters: all start in, and each filter sets those that it matches in or out. The store was read before, so each is put to its
   elements at once and none has to be kept; if a fault comes behind it, the choice is forgotten with the rest. */
#include "filters.h"
#include "objects.h"

#include <string.h>

enum { ALL = 1, BY_TYPE = 2, BY_IDS = 6 };

void begin_choice(struct choice *choice, const struct store *store) {
    choice->store = store;
    memset(choice->in, 1, store == NULL ? 0 : store->count);
}

static void set_all(struct choice *choice, unsigned operation) {
    if (choice->store != NULL) {
        memset(choice->in, (int)operation, choice->store->count);
    }
}

static void set_type(struct choice *choice, unsigned operation, uint64_t type) {
    unsigned i, count = choice->store == NULL ? 0 : choice->store->count;
    for (i = 0; i < count; i++) {
        if (choice->store->elements[i].type == type) {
            choice->in[i] = (uint8_t)operation;
        }
    }
}

/* No element has a null id. */
static void set_id(struct choice *choice, unsigned operation, const struct name *id) {
    if (choice->store != NULL && !id->null) {
        unsigned position = find_id(choice->store, id);
        if (position < choice->store->count) {
            choice->in[position] = (uint8_t)operation;
        }
    }
}

static int read_type(struct input *in, unsigned operation, struct choice *choice) {
    struct header h;
    uint64_t type;
    if (!need_start(in, &h, FILTER, FILTER_TYPE, PLAIN, REQUEST_PADDING)) {
        return 0;
    }
    begin_run(in, h.length);
    if (!read_number(in, &type, REQUEST_PADDING) || !end_run(in)) {
        return 0;
    }
    set_type(choice, operation, type);
    return 1;
}

static int read_ids(struct input *in, unsigned operation, struct choice *choice) {
    struct header h;
    uint64_t count, i;
    if (!need_start(in, &h, FILTER, FILTER_IDS, PLAIN, REQUEST_PADDING)) {
        return 0;
    }
    begin_run(in, h.length);
    if (!read_number(in, &count, REQUEST_PADDING)) {
        return 0;
    }
    for (i = 0; i < count; i++) {
        struct name id;
        size_t place = in->at;
        if (!read_extended_guid(in, &id)) {
            return 0;
        }
        if (i == MOST_IDS) {
            return refuse(in, TOO_MANY, place);
        }
        set_id(choice, operation, &id);
    }
    return end_run(in);
}

/* Kind and operation: at each 2, then 8. */
static int read_kind(struct input *in, unsigned *kind, unsigned *operation) {
    if (!read_byte(in, kind)) {
        return 0;
    }
    if (*kind != ALL && *kind != BY_TYPE && *kind != BY_IDS) {
        return refuse(in, NOT_SERVED, in->at - 1);
    }
    if (!read_byte(in, operation)) {
        return 0;
    }
    return *operation <= 1 ? end_run(in) : refuse(in, NOT_SERVED, in->at - 1);
}

int read_filter(struct input *in, struct header *h, unsigned before, struct choice *choice) {
    unsigned kind, operation;
    if (!is_start(h, FILTER, COMPOUND)) {
        return refuse(in, WRONG_LAYOUT, h->place);
    }
    if (before == MOST_FILTERS) {
        return refuse(in, TOO_MANY, h->place);
    }
    if (!true_length(in, h, REQUEST_PADDING)) {
        return 0;
    }
    begin_run(in, h->length);
    if (!read_kind(in, &kind, &operation)) {
        return 0;
    }
    if (kind == ALL) {
        set_all(choice, operation);
    } else if (!(kind == BY_TYPE ? read_type(in, operation, choice) : read_ids(in, operation, choice))) {
        return 0;
    }
    return need_end(in, FILTER);
}
