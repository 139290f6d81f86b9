/* One ask and its answer: the bench's side and the hub's side over byte buffers, with nothing between them but the bytes of the
   request and of the answer. */
#ifndef EXCHANGE_H
#define EXCHANGE_H

#include "../include/hub.h"
#include "bytes.h"

struct exchange {
    const struct bytes *store, *filters; /* the hub's store; what the bench asks with */
    uint64_t limit;
    uint64_t offered;                    /* what the hub is willing to lend for an answer; for the smallest page it lends more */
    uint64_t id;                         /* that of the last ask; it counts up from 1 */
    struct bytes request, answer;        /* the buffers that are lent, and what the last ask and its answer have of them */
    struct bytes knowledge;              /* what is known at the next ask */
    uint64_t too_short;                  /* how many calls were refused because too little was lent or offered */
    uint8_t report[HUB_READ_REPORT_BYTES]; /* what hub_read tells of the last answer */
    int quiet;
};

/* Asks, answers and reads. After ENDED_WELL the answer is read and has the id that was asked with, the report tells of it, and
   its knowledge is taken for the next ask. Any refusal but for room that hub_ask or hub_length needs is said and gives REFUSED, or
   WRONG_CONTENT for filters. */
int exchange_once(struct exchange *x);

void exchange_free(struct exchange *x);

#endif
