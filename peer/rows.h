/* The rows of the tables that document 01 has lent to the answering calls: of a store, with the rank of document 02, and of a
   knowledge. */
#ifndef PEER_ROWS_H
#define PEER_ROWS_H

#include "order.h"
#include "ranges.h"

/* How many numbers a row has, and how many a table has to have. */
#define ROW_NUMBERS 7u
#define RANGE_NUMBERS 4u
#define ROWS_NEEDED (ROW_NUMBERS * MOST_ELEMENTS)
#define RANGES_NEEDED (RANGE_NUMBERS * MOST_RANGES)

/* A row for each element, in row order. */
void put_rows(uint64_t *to, const struct store *store, const struct order *order);

/* A row for each range. */
void put_range_rows(uint64_t *to, const struct ranges *set);

#endif
