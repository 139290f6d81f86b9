/* Objects within objects, read, and headers written. Headers stand outside of runs, so that only the input's end bounds them. */
#include "objects.h"

static int read_header(struct input *in, struct header *h) {
    size_t left = in->length - in->at;
    const uint8_t *p;
    h->place = in->at;
    h->length = 0;
    h->longer = 0;
    h->compound = PLAIN;
    if (left == 0) {
        return refuse(in, RUNS_PAST, in->at);
    }
    p = in->bytes + in->at;
    h->start = (p[0] & 1) == 0;
    if ((p[0] & 3) == 1) {
        h->type = p[0] >> 2;
        in->at += 1;
        return 1;
    }
    if (left < ((p[0] & 3) == 2 ? 4u : 2u)) {
        return refuse(in, RUNS_PAST, in->at);
    }
    if ((p[0] & 3) == 2) {
        uint32_t all = (uint32_t)little(p, 4);
        h->type = all >> 3 & 0x3FFF;
        h->compound = all >> 2 & 1;
        h->length = all >> 17;
        h->longer = h->length == 0x7FFF;
        in->at += 4;
        return 1;
    }
    h->type = (unsigned)little(p, 2) >> 2;
    if (h->start) {
        h->compound = h->type & 1;
        h->length = h->type >> 7;
        h->type = h->type >> 1 & 0x3F;
    }
    in->at += 2;
    return 1;
}

int next_header(struct input *in, struct header *h, unsigned open) {
    if (!read_header(in, h)) {
        return 0;
    }
    return h->start || h->type == open ? 1 : refuse(in, WRONG_END, h->place);
}

int true_length(struct input *in, struct header *h, enum padding padding) {
    return h->longer ? read_number(in, &h->length, padding) : 1;
}

int fixed_length(struct input *in, struct header *h, uint64_t length, enum padding padding) {
    if (!true_length(in, h, padding)) {
        return 0;
    }
    return h->length == length ? 1 : refuse(in, WRONG_LAYOUT, h->place);
}

int expected_start(struct input *in, struct header *h, unsigned open, unsigned type, int compound) {
    if (!next_header(in, h, open)) {
        return 0;
    }
    return is_start(h, type, compound) ? 1 : refuse(in, WRONG_LAYOUT, h->place);
}

int need_start(struct input *in, struct header *h, unsigned open, unsigned type, int compound, enum padding padding) {
    return expected_start(in, h, open, type, compound) && true_length(in, h, padding);
}

int need_fixed_start(struct input *in, unsigned open, unsigned type, int compound, uint64_t length, enum padding padding) {
    struct header h;
    return expected_start(in, &h, open, type, compound) && fixed_length(in, &h, length, padding);
}

int need_end(struct input *in, unsigned open) {
    struct header h;
    if (!next_header(in, &h, open)) {
        return 0;
    }
    return h.start ? refuse(in, WRONG_LAYOUT, h.place) : 1;
}

void begin_run(struct input *in, uint64_t length) {
    size_t left = in->length - in->at;
    in->cut = length > left;
    in->end = in->at + (in->cut ? left : (size_t)length);
}

int end_run(struct input *in) {
    if (in->at < in->end) {
        return refuse(in, WRONG_LAYOUT, in->at);
    }
    if (in->cut) {
        return refuse(in, RUNS_PAST, in->at);
    }
    in->end = in->length;
    return 1;
}

/* What is open inside the object that is passed over: at most 16 below it, with its own type at the bottom. */
struct nest {
    unsigned types[DEPTH_READ];
    unsigned depth, most;
};

/* One header of the longer forms, or one that is cut, with its data; 2 when it was the last end. */
static int pass_one(struct input *in, struct nest *nest, enum padding padding) {
    struct header h;
    if (!next_header(in, &h, nest->types[nest->depth])) {
        return 0;
    }
    if (!h.start) {
        if (nest->depth == 0) {
            return 2;
        }
        nest->depth--;
        return 1;
    }
    if (h.compound && nest->depth == nest->most) {
        return refuse(in, TOO_DEEP, h.place);
    }
    if (!true_length(in, &h, padding)) {
        return 0;
    }
    if (h.length > in->length - in->at) {
        return refuse(in, RUNS_PAST, in->at);
    }
    if (h.compound) {
        nest->types[++nest->depth] = h.type;
    }
    in->at += (size_t)h.length;
    return 1;
}

/* Goes by objects and ends with the short headers, as long as nothing is wrong with them and the last end has not come. Most are
   such, and a store may have millions; whatever is anything else is left to pass_one, and a true length with it. */
static size_t pass_short(const uint8_t *p, size_t at, size_t length, struct nest *nest) {
    unsigned depth = nest->depth;
    while (length - at >= 2) {
        unsigned first = p[at];
        size_t data = p[at + 1] >> 1;
        if ((first & 3) == 1 && depth > 0 && nest->types[depth] == first >> 2) {
            depth--;
            at++;
            continue;
        }
        if ((first & 3) != 0 || data > length - at - 2 || ((first & 4) != 0 && depth == nest->most)) {
            break;
        }
        if ((first & 4) != 0) {
            nest->types[++depth] = first >> 3 | (p[at + 1] & 1u) << 5;
        }
        at += 2 + data;
    }
    nest->depth = depth;
    return at;
}

int pass_inside(struct input *in, unsigned type, unsigned open, unsigned most, enum padding padding) {
    struct nest nest;
    int gone;
    nest.types[0] = type;
    nest.depth = 0;
    nest.most = most - open;
    do {
        in->at = pass_short(in->bytes, in->at, in->length, &nest);
        gone = pass_one(in, &nest, padding);
    } while (gone == 1);
    return gone == 2;
}

uint8_t *put_start(uint8_t *p, unsigned type, int compound, uint64_t length) {
    uint64_t low = (uint64_t)type << 3 | (compound ? 4u : 0u);
    if (type < 64 && length < 128) {
        return put_little(p, length << 9 | low, 2);
    }
    if (length < 0x7FFF) {
        return put_little(p, length << 17 | low | 2, 4);
    }
    return put_compact(put_little(p, (uint64_t)0x7FFF << 17 | low | 2, 4), length);
}

uint8_t *put_end(uint8_t *p, unsigned type) {
    return type < 64 ? put_little(p, type << 2 | 1, 1) : put_little(p, type << 2 | 3, 2);
}

int read_front(struct input *in, uint64_t signature) {
    const uint8_t *p = in->bytes;
    if (in->length < 2) {
        return refuse(in, RUNS_PAST, 0);
    }
    if (little(p, 2) < 12) {
        return refuse(in, WRONG_VERSION, 0);
    }
    if (in->length < 4) {
        return refuse(in, RUNS_PAST, 2);
    }
    if (little(p + 2, 2) > 12) {
        return refuse(in, WRONG_VERSION, 2);
    }
    if (in->length < 12) {
        return refuse(in, RUNS_PAST, 4);
    }
    in->at = 12;
    return little8(p + 4) == signature ? 1 : refuse(in, WRONG_VERSION, 4);
}
