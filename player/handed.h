/* What a put hands in: the bytes of elements, one behind the other, as a file has them or a folder of files.

   A file is a package as a store is one (start, zero byte, elements, end), of which the elements are taken, or it has the bytes of
   elements alone. Of a folder every file is taken, in the order of their names; names that begin with a dot are passed over.
   Serial numbers may be null or come twice: the hub gives its own. */
#ifndef HANDED_H
#define HANDED_H

#include "bytes.h"

/* One of the files: where its elements begin, in it and among the bytes of all. */
struct part {
    char *file;
    size_t front, place;
};

struct handed {
    struct bytes elements;
    struct part *parts;
    size_t count;
};

/* Reads them, and has the library judge them, so that a fault is told before anything is asked. CANNOT_OPEN, TOO_LARGE and
   WRONG_CONTENT are said, with the file and the place in it. */
int handed_read(struct handed *h, const char *name);

/* How many elements there are in what was read. */
size_t handed_count(const struct handed *h);

void handed_free(struct handed *h);

#endif
