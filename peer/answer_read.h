/* An answer to a query or to a put, as a bench reads it. */
#ifndef PEER_ANSWER_READ_H
#define PEER_ANSWER_READ_H

#include "objects.h"
#include "store.h"

struct received {
    struct store package;
    struct name index;
    uint64_t id;
    unsigned partial;
    size_t knowledge, knowledge_length;
};

/* An answer whole. Padding is taken. */
int read_answer(struct input *in, enum request_type type, struct received *r);

#endif
