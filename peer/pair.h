/* What the two calls that answer a request have to do with each other. It is held for each side by itself: whatever one is offered,
   the first gives the number and the report that the second gives with an output of that length, and into an output of exactly the
   length that is told the second writes that same answer. */
#ifndef PEER_PAIR_H
#define PEER_PAIR_H

#include "cases.h"
#include "sides.h"

/* What a call is handed beside its numbers. */
struct handed {
    const uint8_t *first, *second;
    uint8_t *out, *new_store, *report;
};

/* Takes the memory for outputs and reports up to these lengths. */
void begin_pairs(size_t longest, size_t longest_report);

/* The first words of what is not as it should be, or NULL. The case is of LENGTH or of WRITE and was run by both, the library
   first; both gave this number, and the same report and output. */
const char *pair_differs(const struct one_case *c, uint64_t number, const struct handed *h);

#endif
