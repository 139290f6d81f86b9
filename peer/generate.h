/* Cases that a seed determines: what a call is handed, and how much it is lent. Only the peer is asked what a case needs. */
#ifndef PEER_GENERATE_H
#define PEER_GENERATE_H

#include "cases.h"

enum way { VALID, SPOILED, DAMAGED, CUT };

/* The inputs of a case, whose call is chosen, with one decision spoiled or none; how many decisions there were. */
uint32_t fill_case(struct one_case *c, uint64_t seed, uint32_t spoiled);

/* The inputs of a case, whose call is chosen, made in one of the ways. */
void make_inputs(struct luck *l, struct one_case *c, uint64_t seed, enum way way);

/* Report, output and new store, the last two only for the calls that write them. */
void lend_rooms(struct luck *l, struct one_case *c);

/* A case whole, of any call but KEEP; and one of KEEP, of which there are runs of their own. */
void make_case(struct luck *l, struct one_case *c);
void make_keep_case(struct luck *l, struct one_case *c);

/* What the peer says of a case with an output of no bytes, or with no room for a new store: the length that it would need. */
size_t room_needed(const struct one_case *c);
size_t new_room_needed(const struct one_case *c);

#endif
