/* One case: a call with all that it is handed. It is run by the library and by the peer on equal buffers, and what both leave is
   compared byte by byte. A case can be written as a line of crates/cases/README.md; field.h reads such lines again. */
#ifndef PEER_CASES_H
#define PEER_CASES_H

#include "make.h"

#include <stdio.h>

enum call { LENGTH, WRITE, ASK, READ, FIND, PUT, ASK_PUT, READ_PUT, KEEP };

struct one_case {
    enum call call;
    uint64_t offered;        /* of LENGTH: how long an output the page is decided for */
    uint64_t id, limit;      /* of ASK; ASK_PUT has an id too */
    uint64_t kind, position; /* of FIND */
    uint64_t named, number;  /* of ASK_PUT: whether a storage index is expected, and its number */
    uint64_t guid[2];        /* its GUID, bytes 0 to 7 and 8 to 15 as numbers; of PUT the hub's */
    struct text first, second;
    size_t room, new_room, report; /* lengths of what is written to: the output, of KEEP the new book; the new store of PUT; the
                                      report */
};

/* Whether a call is one of the two that answer a request. */
static inline int answers(enum call call) {
    return call == LENGTH || call == WRITE;
}

/* Whether a call has an output. */
static inline int writes(enum call call) {
    return call == WRITE || call == ASK || call == PUT || call == ASK_PUT || call == KEEP;
}

/* Whether a call has a second input. */
static inline int takes_two(enum call call) {
    return answers(call) || call == ASK || call == PUT || call == KEEP;
}

/* Takes the memory for cases up to this length. */
void begin_cases(size_t longest);

struct outcome {
    uint64_t number, input, place, length; /* as the peer tells them, if the report is long enough */
};

/* Whether library and peer agree; and, of the two that answer a request, whether what one of them gives is what the other gives,
   on either side (pair.h). If not, it says in what. */
int agree(const struct one_case *c, struct outcome *peer);

/* As one line. */
void write_case(FILE *to, const struct one_case *c);

#endif
