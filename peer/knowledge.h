/* Knowledge as a request or an answer has it, read and written. */
#ifndef PEER_KNOWLEDGE_H
#define PEER_KNOWLEDGE_H

#include "ranges.h"

/* How many bytes a knowledge has around its ranges. */
#define KNOWLEDGE_AROUND 28u

struct header;

/* A knowledge behind its header, which was read; the true length is still to be read. Three objects are open with it, of so many
   at most. The ranges are put into the set, if there is one. */
int read_knowledge(struct input *in, struct header *h, unsigned most, struct ranges *set, enum padding padding);

/* The same with the header, which is needed here; open is the type that it stands in. */
int need_knowledge(struct input *in, unsigned open, unsigned most, struct ranges *set, enum padding padding);

/* How many bytes a range takes, and all ranges of a set. */
unsigned range_length(uint64_t from, uint64_t to);
uint64_t ranges_length(const struct ranges *set);

/* How many bytes a knowledge takes whose ranges take so many. */
uint64_t knowledge_length(uint64_t ranges);

uint8_t *put_knowledge(uint8_t *p, const struct ranges *set);

#endif
