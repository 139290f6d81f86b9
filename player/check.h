/* Whether a book is in step with a store (--check): every element of the store whose serial number is known stands in the book with
   the store's bytes. What is known is said by the knowledge beside the book, if it counts there (book.h); what is not known would
   still come, and is no fault. Nothing is written. */
#ifndef CHECK_H
#define CHECK_H

#include "options.h"

/* Says which ids differ, and how. ENDED_WELL, or NOT_IN_STEP; faults of the files are said. */
int check(const struct options *o);

#endif
