/* A plain model of demand 3, in lists: which groups of a made store are wanted, what is known after so many of them were sent, and
   how long the answer is that sends the next ones. It reads no bytes: it knows what was made. */
#ifndef PEER_MODEL_H
#define PEER_MODEL_H

#include "make.h"

#define MOST_KNOWN 600u

struct model {
    const struct maker *made;
    unsigned count; /* of groups that are wanted, each at the place of its first member in row order */
    unsigned sent;  /* of these */
    unsigned members[MOST_MADE];    /* positions of their members: one group behind the other, each in row order */
    unsigned begins[MOST_MADE + 1]; /* where the members of each group begin, and where those of the last end */
};

/* Ranges in the order of document 01, joined. */
struct known {
    unsigned count;
    struct made_range ranges[MOST_KNOWN];
};

/* Which are wanted at the start. */
void begin_model(struct model *model, const struct maker *made);

/* The serial number of a wanted group. */
const struct made_name *serial_of_group(const struct model *model, unsigned group);

/* How many bytes the members of the next k groups have. */
uint64_t groups_bytes(const struct model *model, unsigned k);

/* The first knowledge and the serial numbers of the first n that are wanted. */
void known_after(const struct model *model, unsigned n, struct known *known);

/* The serial numbers of all elements of a made store. */
void known_all(const struct maker *made, struct known *known);

/* The length of the answer with this id that sends the next k. */
size_t length_with(const struct model *model, uint64_t id, unsigned k);

/* How many are sent under this limit into an output of this length; if that is not even the smallest page, `refused`. */
unsigned page_under(const struct model *model, uint64_t id, uint64_t limit, size_t room, int *refused);

#endif
