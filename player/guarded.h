/* hub_length, hub_write, hub_put and hub_keep on buffers that are filled with a pattern and have a margin of it on both sides, so
   that it can show if a call breaks what include/hub.h promises. This is what is looked at, and nothing else:
   - the number is one that is returned, the input 0 or 1, the place within that input;
   - the length is that of the answer or one that is needed, as it goes with the number and the rooms, and else 0;
   - no byte is changed but the report's, the answer's, the new store's and the new book's: none of the buffers of a refusal, none
     behind what was written, none before or behind a buffer;
   - the same inputs give the same again;
   - hub_length tells what hub_write tells with an output of the length offered; into one of exactly the length that is told
     hub_write writes so much;
   - hub_read takes every answer to a request, and hub_read_put every answer to a put; hub_element takes the new store and
     the new book. Whether they are the right ones is not looked at. */
#ifndef GUARDED_H
#define GUARDED_H

#include "bytes.h"

struct guarded {
    uint64_t number, input, place, length; /* what came */
    uint64_t new_length;                   /* of a put that entered, the new store's */
    struct bytes answer, new_store;        /* what was written, if there is no refusal, the new book as the answer; to be freed */
    const char *broken;                    /* the promise that was seen broken, or NULL */
};

/* Calls, calls again with buffers of another pattern, and holds both to these promises. No answer comes of guarded_length. */
struct guarded guarded_length(const struct bytes *store, const struct bytes *request, uint64_t offered);
struct guarded guarded_write(const struct bytes *store, const struct bytes *request, size_t out_length);
struct guarded guarded_put(const struct bytes *store, const struct bytes *put, const uint64_t *guid, size_t new_length,
                           size_t out_length);
struct guarded guarded_keep(const struct bytes *book, const struct bytes *answer, size_t new_length);

#endif
