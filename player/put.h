/* One put and its answer: the bench's side and the hub's side over byte buffers, with nothing between them but the bytes of the put
   and of the answer. Between the two calls of the hub's side and the bench's the new store is saved (put_talk.c): an answer is sent
   only when the store that it tells of is on the disk. */
#ifndef PUT_H
#define PUT_H

#include "bytes.h"

struct put {
    const struct bytes *elements;      /* what the bench hands in */
    uint64_t guid_low, guid_high;      /* the hub's GUID */
    uint64_t id;                       /* that of the last put; it counts up from 1 */
    struct bytes request, answer;      /* the buffers that are lent, and what the last put and its answer have of them */
    struct bytes new_store;            /* what the hub makes of its store */
    int taken;                         /* whether the put entered; if not, the store has another storage index */
    int quiet;
};

/* The bench's side: writes a put that expects the storage index that an answer had, of which hub_read told this report. */
int put_write(struct put *p, const uint8_t *report_of_answer);

/* The hub's side: the new store and the answer, from the store and the bytes of the put alone. ENDED_WELL is also the end if the
   store has another storage index (HUB_OTHER_INDEX): then nothing is taken. FULL: the new store would be too much for one. */
int put_apply(struct put *p, const struct bytes *store);

/* The bench's side again: whether an answer to this put came. Its knowledge is not taken: it has serial numbers of elements that
   this bench never got, and an ask with it would never bring them. */
int put_read(struct put *p);

void put_free(struct put *p);

#endif
