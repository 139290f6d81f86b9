/* What the answers to a query and to a put share: all but the elements in the package and the objects of the sub-response. */
#ifndef PEER_ANSWER_FRAME_H
#define PEER_ANSWER_FRAME_H

#include "objects.h"

/* Version, signature, and the response with its status byte: all before the package. */
int read_response(struct input *in);

/* The sub-response's own data behind the package: its id, and its type, of which another is 8. */
int read_sub_response(struct input *in, enum request_type type, uint64_t *id);

/* The ends, and nothing behind them. */
int read_answer_ends(struct input *in);

/* The bytes that the three writers write, beside those of the id. */
#define ANSWER_FRAME_BYTES 31u

/* Each writes, and answers the place behind: up to the first element; from the package's end to the status byte; the ends. */
uint8_t *put_response(uint8_t *p);
uint8_t *put_sub_response(uint8_t *p, enum request_type type, uint64_t id);
uint8_t *put_answer_ends(uint8_t *p);

#endif
