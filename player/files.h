/* Files: read whole, and written aside before they take a name. */
#ifndef FILES_H
#define FILES_H

#include "bytes.h"

/* Reads a whole file that has at most so many bytes. CANNOT_OPEN and TOO_LARGE are said on the error output. */
int file_read(const char *name, size_t most, struct bytes *into);

/* The same of a file that may be absent: *there is then 0, which is no fault. */
int file_read_if_there(const char *name, size_t most, struct bytes *into, int *there);

/* Whether two names, however they are spelled, are those of one file that is there. */
int file_is(const char *one, const char *other);

/* The name with an ending behind it, in memory to be freed. */
char *name_with(const char *name, const char *ending);

/* Writes bytes to a new file NAME.new and waits until they are on the disk. What had that name is taken away, a link without
   what it leads to. If that fails it is said, and none of it is left. */
int file_write_aside(const char *name, const struct bytes *b);

/* Gives NAME.new its name, in one step: NAME is the old file or the new one, never a part. If that fails it is said, and
   NAME.new is taken away. */
int file_put_in_place(const char *name);

/* Takes NAME.new away. */
void file_drop_aside(const char *name);

#endif
