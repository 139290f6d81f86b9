/* The words of a case (crates/cases/README.md), and what they spell. */
#ifndef PEER_WORDS_H
#define PEER_WORDS_H

#include "numbers.h"

/* What a case is given, in the order of its words. Bytes end at a protected page. */
struct given {
    const uint8_t *bytes[2];
    size_t lengths[2];
    uint64_t numbers[4];
    struct guid guid;
};

/* Kinds of words. Those from ANY_NUMBER on are numbers, each with the largest that is taken; the last five are the lengths of what
   is lent to be written. */
enum word_kind {
    NO_WORD,
    BYTES,
    GUID,
    ANY_NUMBER,
    NUMBER_32,
    ZERO_OR_ONE,
    FOR_ITEM,
    FOR_KNOWLEDGE,
    FOR_REQUEST,
    FOR_ANSWER,
    FOR_TABLE
};

#define MOST_WORDS 6u

void begin_words(void);

/* Whether the words from here to the end of the line, with one blank between two, are of these kinds, up to the first NO_WORD. */
int take_words(const char *line, const char *end, const enum word_kind *kinds, struct given *g);

/* Begins to read the bytes of the first or the second word that has some. */
static inline int begin_bytes(struct input *in, const struct given *g, unsigned i) {
    return begin_input(in, g->bytes[i], g->lengths[i], LONGEST_INPUT);
}

/* The half of the GUID that begins at this byte, as the calls are handed it. */
static inline uint64_t guid_half(const struct given *g, size_t at) {
    uint8_t bytes[16];
    put_guid(bytes, g->guid);
    return little8(bytes + at);
}

/* Where the word that begins here ends: at a blank or at the end of the line. */
const char *word_end(const char *at, const char *end);

#endif
