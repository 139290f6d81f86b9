/* The types of the elements of a store, one behind the other: in any order, so that ranks fall and rise; falling or rising all the
   way; and with the storage index behind all others. */
#include "make_inner.h"

#define TYPES 12u /* 0 to 11 */

enum { MIXED, FALLING, RISING, INDEX_LAST, WAYS };

/* Those that have a rank of their own are as frequent as all others. */
uint64_t element_type(struct maker *m) {
    if (luck_one_in(&m->luck, 8)) {
        return luck_number(&m->luck);
    }
    return luck_below(&m->luck, luck_one_in(&m->luck, 2) ? 6 : TYPES);
}

void begin_types(struct maker *m, unsigned elements) {
    m->typed = 0;
    m->to_type = elements;
    m->types_go = luck_one_in(&m->luck, 2) ? MIXED : (unsigned)luck_below(&m->luck, WAYS);
}

uint64_t next_type(struct maker *m) {
    uint64_t type, highest = TYPES - 1;
    unsigned i = m->typed++;
    switch (m->types_go) {
    case FALLING: /* from 11 down to 1 */
        return highest - i * highest / m->to_type;
    case RISING: /* from 1 on; 0 has the rank of what comes last */
        return 1 + i * highest / m->to_type;
    case INDEX_LAST:
        type = element_type(m);
        return i + 1 == m->to_type ? 1 : type == 1 ? 0 : type;
    default:
        return element_type(m);
    }
}
