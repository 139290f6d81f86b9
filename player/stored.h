/* Files of stored cases: a line for each call that is to be made again. player --help tells the forms of a line. */
#ifndef STORED_H
#define STORED_H

#include "../include/hub.h"
#include "bytes.h"

/* No input and no output of a case is longer, and no file of cases: there is room for two inputs in hex that are longer than any
   that are taken. */
#define STORED_LONGEST (8u * HUB_LONGEST_INPUT)

enum stored_call { CALL_LENGTH, CALL_WRITE, CALL_ASK, CALL_READ, CALL_ELEMENT, CALL_PUT, CALL_ASK_PUT, CALL_READ_PUT, CALL_KEEP };

struct stored {
    size_t line; /* in the file of cases, counted from 1 */
    enum stored_call call;
    uint64_t id, limit;         /* of CALL_ASK; CALL_ASK_PUT has an id too */
    uint64_t kind, position;    /* of CALL_ELEMENT */
    uint64_t named, number;     /* of CALL_ASK_PUT: whether a storage index is expected, and its number */
    uint64_t guid[2];           /* its GUID, bytes 0 to 7 and 8 to 15 as numbers; of CALL_PUT the hub's */
    struct bytes first, second; /* the inputs in their order; a call with one has nothing as the second */
    uint64_t offered;           /* of CALL_LENGTH */
    size_t room;                /* of the output, if there is one; of CALL_KEEP of the new book */
    size_t new_room;            /* of the new store, of CALL_PUT */
    int lent;                   /* whether a line of CALL_LENGTH or CALL_WRITE has the lengths of two tables; none are lent here */
    size_t rows, ranges;        /* how many numbers these are, if it has: of the store's table and of the knowledge's */
};

/* Reads the cases of a file, and hands each to `run` with the pointer. It stops at the first status that is not ENDED_WELL: that
   of `run`, CANNOT_OPEN, TOO_LARGE or WRONG_CONTENT, which are said on the error output. */
int stored_each(const char *name, int (*run)(const struct stored *c, void *with), void *with);

#endif
