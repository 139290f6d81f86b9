/* The peer's two answering calls with lent tables, on inputs, output and tables that end at a protected page; and whether one
   touched what it has no right to touch. */
#ifndef PEER_LENT_ANSWER_H
#define PEER_LENT_ANSWER_H

#include "peer.h"
#include "text.h"

/* A call. The lengths of the tables count numbers. */
struct lent_answer {
    int writes;       /* the second call; else the first, which tells the length alone */
    uint64_t offered; /* to the first, and how long the output of the second is, which then is no longer than it can be lent */
    const uint8_t *store, *request;
    size_t store_len, request_len, rows_len, ranges_len;
};

/* What the call left: how many rows each table got, none after a refusal, and the answer's length or the needed one. The first call
   left no output. */
struct lent_result {
    const uint8_t *store, *request, *out;
    const uint64_t *rows, *ranges;
    uint64_t number, length, row_count, range_count;
    uint8_t report[PEER_TABLES_REPORT_BYTES];
};

/* Takes the memory for all that the program `cases` takes. */
void begin_lent_answers(void);

void run_lent_answer(const struct lent_answer *a, struct lent_result *r);

/* What the call touched, in words, or NULL. */
const char *touched_by(const struct lent_answer *a, const struct lent_result *r);

/* The line that the program `cases` has to print, without its end. */
void spell_answer(struct text *t, const struct lent_answer *a, const struct lent_result *r);

#endif
