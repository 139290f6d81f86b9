/* Lines of text: words, numbers, bytes in hex, rows of a table, and what a call told, in the form of crates/cases/README.md. */
#ifndef PEER_SPELL_H
#define PEER_SPELL_H

#include "input.h"
#include "text.h"

void spell_words(struct text *t, const char *words);

/* A number behind a mark. */
void spell_number(struct text *t, const char *mark, uint64_t x);

/* A blank and the bytes, `-` for none. */
void spell_hex(struct text *t, const uint8_t *p, size_t n);

/* A blank and the rows of a table, each of so many numbers, `-` for none. */
void spell_rows(struct text *t, const uint64_t *table, uint64_t count, unsigned numbers);

void spell_refusal(struct text *t, uint64_t number, uint64_t input, uint64_t place, uint64_t needed);

/* Whether the first or the second input was read; if not, the fault that it has got is spelled. */
int is_read(int was_read, struct text *t, const struct input *in, uint64_t input);

/* A refusal whose report was written. */
void spell_report(struct text *t, uint64_t number, const uint8_t *report);

/* Bytes up to a place, which were to be written to an output of this length. */
void spell_written(struct text *t, const uint8_t *p, const uint8_t *end, uint64_t room);

#endif
