/* The words of a case (words.h). */
#include "words.h"
#include "lend.h"
#include "taken.h"

/* Bytes of both words stand in one space, as they do in the program `cases`, and are then lent. */
static uint8_t space[LONGEST_BYTES];
static struct block blocks[2];

void begin_words(void) {
    blocks[0] = new_block(LONGEST_BYTES);
    blocks[1] = new_block(LONGEST_BYTES);
}

const char *word_end(const char *at, const char *end) {
    const char *blank = at == end ? NULL : memchr(at, ' ', (size_t)(end - at));
    return blank == NULL ? end : blank;
}

/* What a digit stands for, in decimal and in hex; 16 if it is none. */
static unsigned digit_of(char c) {
    if (c >= '0' && c <= '9') {
        return (unsigned)(c - '0');
    }
    return c >= 'a' && c <= 'f' ? (unsigned)(c - 'a') + 10 : 16;
}

static int spells_number(const char *at, const char *end, uint64_t most, uint64_t *value) {
    uint64_t x = 0;
    if (at == end) {
        return 0;
    }
    for (; at < end; at++) {
        unsigned d = digit_of(*at);
        if (d > 9 || x > (UINT64_MAX - d) / 10) {
            return 0;
        }
        x = x * 10 + d;
    }
    *value = x;
    return x <= most;
}

/* Bytes in hex, `-` for none, if there is room for them. */
static int spells_bytes(const char *at, const char *end, uint8_t *to, size_t room, size_t *length) {
    size_t i, digits = (size_t)(end - at);
    *length = digits / 2;
    if (digits == 1 && *at == '-') {
        return 1;
    }
    if (digits == 0 || digits % 2 == 1 || *length > room) {
        return 0;
    }
    for (i = 0; i < *length; i++) {
        unsigned high = digit_of(at[2 * i]), low = digit_of(at[2 * i + 1]);
        if (high > 15 || low > 15) {
            return 0;
        }
        to[i] = (uint8_t)(high << 4 | low);
    }
    return 1;
}

static int spells_guid(const char *at, const char *end, struct guid *guid) {
    uint8_t bytes[16];
    size_t length;
    if (!spells_bytes(at, end, bytes, sizeof bytes, &length) || length != sizeof bytes) {
        return 0;
    }
    *guid = guid_at(bytes);
    return 1;
}

static uint64_t most_of(enum word_kind kind) {
    switch (kind) {
    case NUMBER_32:
        return UINT32_MAX;
    case ZERO_OR_ONE:
        return 1;
    case FOR_ITEM:
        return LONGEST_ITEM;
    case FOR_KNOWLEDGE:
        return LONGEST_KNOWLEDGE;
    case FOR_REQUEST:
        return LONGEST_REQUEST;
    case FOR_ANSWER:
        return LONGEST_BYTES;
    case FOR_TABLE:
        return LONGEST_TABLE;
    default:
        return UINT64_MAX;
    }
}

/* How many words of each kind were taken, and how much of the space. */
struct taken {
    unsigned bytes, numbers;
    size_t space;
};

static int take_bytes(const char *at, const char *end, struct given *g, struct taken *taken) {
    unsigned i = taken->bytes++;
    if (!spells_bytes(at, end, space + taken->space, sizeof space - taken->space, &g->lengths[i])) {
        return 0;
    }
    g->bytes[i] = lend_copy(blocks[i], space + taken->space, g->lengths[i]);
    taken->space += g->lengths[i];
    return 1;
}

static int take_word(const char *at, const char *end, enum word_kind kind, struct given *g, struct taken *taken) {
    switch (kind) {
    case BYTES:
        return take_bytes(at, end, g, taken);
    case GUID:
        return spells_guid(at, end, &g->guid);
    default:
        return spells_number(at, end, most_of(kind), &g->numbers[taken->numbers++]);
    }
}

/* The line stands at a blank before each word, and at its end behind the last. */
int take_words(const char *line, const char *end, const enum word_kind *kinds, struct given *g) {
    struct taken taken = {0, 0, 0};
    unsigned i;
    for (i = 0; i < MOST_WORDS && kinds[i] != NO_WORD; i++) {
        const char *at = line + 1;
        if (line == end) {
            return 0;
        }
        line = word_end(at, end);
        if (!take_word(at, line, kinds[i], g, &taken)) {
            return 0;
        }
    }
    return line == end;
}
