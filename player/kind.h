/* What a file is, of what a hub and a bench send and keep, and what the library says of it. */
#ifndef KIND_H
#define KIND_H

#include "bytes.h"

enum kind { A_STORE, A_REQUEST, A_PUT, AN_ANSWER, A_PUT_ANSWER, A_KNOWLEDGE };

/* Its name in words, as "a store". */
const char *kind_name(enum kind kind);

/* By the signature, or by the type of the first object; what is neither is taken for a store, which the library then judges. *from
   is where the objects begin: behind versions and signature, or behind the line before the knowledge of a book. */
enum kind kind_of(const struct bytes *file, size_t *from);

/* The library's word on it: 0, or the number of a refusal. The report, of HUB_READ_REPORT_BYTES, tells more; of a knowledge the
   place counts from where the objects begin. */
uint64_t kind_judge(enum kind kind, const struct bytes *file, size_t from, uint8_t *report);

#endif
