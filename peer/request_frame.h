/* The front of a request, which a query and a put share: all that stands before the first object of the sub-request. */
#ifndef PEER_REQUEST_FRAME_H
#define PEER_REQUEST_FRAME_H

#include "objects.h"

/* Version, signature, start, user agent and the sub-request's own data: its id, and its type, of which another is 8. */
int read_request_front(struct input *in, enum request_type type, uint64_t *id);

/* The bytes that are written for it, beside those of the id. */
#define REQUEST_FRONT_BYTES 28u

uint8_t *put_request_front(uint8_t *p, enum request_type type, uint64_t id);

#endif
