/* The book: what a bench has of the store, in a file that is itself a store, and beside it the knowledge that goes with it.

   BOOK is what hub_keep makes of it with each answer: a package, written shortest, of the elements that came, with their stored
   bytes. One that comes with the id of another takes its place, and new ones follow in the order in which they came. BOOK.knowledge
   has one line of text, the seal, and behind it the bytes of the knowledge as the last answer told it.

   Two files cannot take their names in one step, so the pair is made such that no cut can harm it:
   - Both are written aside and are on the disk before either takes its name; then the book does, and then the knowledge.
   - The seal has the book's length and a sum over book and knowledge. A knowledge counts only beside the very book that it
     was saved with; any other is passed over, as if there were none. So nothing is taken as known but what this book was
     given: not after a cut between the two names, not if they came to the disk in the other order, not if a book was put back
     from a copy, was removed or has a damaged byte. No element can be lost.
   - With no knowledge the talk begins anew and everything comes again. An element that comes with an id of the book replaces the
     one there, by the same bytes or by others. So an element that comes twice does no harm, and the book is always a store.

   Elements that share a serial number are a group, and each has its own id: the book has them all. So a serial number replaces
   nothing; an element would be lost for good if another took its place, as its serial number is known by then. An element
   whose id was damaged in the book is then one that no store has, and stays beside the good one when that comes again.

   Each save makes two new files, which take the names of the old: the umask decides their modes, whatever the old ones had, and
   a name that was a link is then a file. Who wants a book that nobody else reads sets the umask, or keeps it in a folder of that
   kind. */
#ifndef BOOK_H
#define BOOK_H

#include "bytes.h"
#include "objects.h"

struct book {
    const char *name;
    struct bytes package;   /* a store: as it was read, or as hub_keep wrote it */
    struct bytes knowledge; /* empty: nothing is known */
    struct elements all;    /* where the elements stand in the package */
    int there;              /* whether the file is there already */
    int passed_over;        /* whether a knowledge lies beside it that does not count */
};

/* Reads the book and its knowledge; a book that is absent is empty. CANNOT_OPEN, TOO_LARGE and BOOK_DAMAGED are said. */
int book_open(struct book *b, const char *name);

/* Keeps an answer, whose elements are listed: *taken grows by how many of them the book did not have, byte for byte. All of it is
   kept, or nothing; FULL is said. */
int book_keep(struct book *b, const struct bytes *answer, const struct elements *page, uint64_t *taken);

/* The book's element with the id of another, or NULL. */
const struct element *book_find(const struct book *b, const uint8_t *bytes, const struct element *e);

/* Whether the book has an element with this id and this serial number; and whether it has one with the same bytes. */
int book_has(const struct book *b, const uint8_t *bytes, const struct element *e);
int book_has_same(const struct book *b, const uint8_t *bytes, const struct element *e);

/* Saves book and knowledge. CANNOT_WRITE is said. If the book could not take its name, the old pair stays as it was. */
int book_save(struct book *b, const struct bytes *knowledge);

void book_free(struct book *b);

#endif
