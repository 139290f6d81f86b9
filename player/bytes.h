/* Byte buffers from the heap: what is read from files, what the calls are lent, what grows at its end. */
#ifndef BYTES_H
#define BYTES_H

#include <stddef.h>
#include <stdint.h>

struct bytes {
    uint8_t *at;         /* NULL where there is no room */
    size_t length, room; /* how many bytes are there, and how many there could be */
};

/* Memory of that many bytes, at least one. Without it the program ends here: no call can go on, and no file is half-written, as
   a book is written aside (files.h). */
void *memory(size_t n);

/* Lends exactly so much room, and forgets what was there: a byte written behind it is then a fault that tools can find. */
void bytes_lend(struct bytes *b, size_t room);

void bytes_add(struct bytes *b, const void *from, size_t n);

void bytes_free(struct bytes *b);

/* The bytes that text spells in hex, with blanks and line ends between any two of them: 1, or 0 if it spells none. */
int bytes_spelled(struct bytes *b, const char *text, size_t n);

#endif
