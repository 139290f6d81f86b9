/* What the words after the program's name ask for. */
#ifndef OPTIONS_H
#define OPTIONS_H

#include <stddef.h>
#include <stdint.h>

enum mode { TALK, PUT, HOSTILE, CHECK, DUMP, REPLAY, HELP };

struct options {
    enum mode mode;
    const char *store, *book, *filters, *file; /* NULL where none is named; file is what is put, dumped or replayed */
    uint64_t limit, seed, times, stop_after;
    size_t ask_bytes, answer_bytes;
    int quiet;
    uint64_t guid_low, guid_high; /* the hub's, bytes 0 to 7 and 8 to 15, the lowest first */
};

/* ENDED_WELL, or WRONG_USE, which is said. */
int options_read(struct options *o, int count, char **words);

/* A number in decimal, at most so great: whether the word is one. */
int decimal(const char *word, uint64_t most, uint64_t *value);

void say_help(void);

#endif
