/* Cases at the greatest lengths, and one byte past them. */
#ifndef PEER_LARGE_H
#define PEER_LARGE_H

#include "cases.h"

/* No input is longer. */
#define LARGEST_CASE 16842800u

void large_cases(void (*run)(const struct one_case *));

#endif
