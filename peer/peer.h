/* The peer: document 01, with of document 02, and beyond the documents the book itself, written in C by
   itself, to compare the library with. Each call but the two with tables has the arguments, the result and the report of the call
   for C with the same name behind the line; what they mean stands in include/hub.h, and for puts beside the calls here. The peer
   takes no memory from the heap and keeps nothing between calls. */
#ifndef PEER_H
#define PEER_H

#include <stddef.h>
#include <stdint.h>

uint64_t peer_length(const uint8_t *store, size_t store_len,
                     const uint8_t *request, size_t request_len,
                     uint64_t offered,
                     uint8_t *report, size_t report_len);

uint64_t peer_write(const uint8_t *store, size_t store_len,
                    const uint8_t *request, size_t request_len,
                    uint8_t *out, size_t out_len,
                    uint8_t *report, size_t report_len);

/* Both with the two tables of document 01, whose lengths are told in numbers: the store's and the knowledge's. The C header has no
   such calls; the program `cases` makes them. On success a report of PEER_TABLES_REPORT_BYTES or more has how many rows each table
   got behind the answer's length. */
#define PEER_TABLES_REPORT_BYTES 40u

struct peer_tables {
    uint64_t *rows;
    size_t rows_len;
    uint64_t *ranges;
    size_t ranges_len;
};

uint64_t peer_length_tables(const uint8_t *store, size_t store_len,
                            const uint8_t *request, size_t request_len,
                            uint64_t offered, const struct peer_tables *tables,
                            uint8_t *report, size_t report_len);

uint64_t peer_write_tables(const uint8_t *store, size_t store_len,
                           const uint8_t *request, size_t request_len,
                           uint8_t *out, size_t out_len, const struct peer_tables *tables,
                           uint8_t *report, size_t report_len);

uint64_t peer_ask(uint64_t id, uint64_t limit,
                  const uint8_t *filters, size_t filters_len,
                  const uint8_t *knowledge, size_t knowledge_len,
                  uint8_t *out, size_t out_len,
                  uint8_t *report, size_t report_len);

uint64_t peer_read(const uint8_t *answer, size_t answer_len,
                   uint8_t *report, size_t report_len);

uint64_t peer_element(uint64_t kind, const uint8_t *bytes, size_t bytes_len, uint64_t position,
                      uint8_t *report, size_t report_len);

/* ---- a bench keeps an answer in its book, which is beyond the documents */

uint64_t peer_keep(const uint8_t *book, size_t book_len,
                   const uint8_t *answer, size_t answer_len,
                   uint8_t *new_book, size_t new_book_len,
                   uint8_t *report, size_t report_len);

/* ---- puts: a hub takes one, and a bench writes one and reads the answer */

/* Takes a put into a store. GUIDs are handed in as two numbers, bytes 0 to 7 and bytes 8 to 15, each with its lowest byte first;
   this one is the hub's, under which elements that enter get their serial numbers. The input at fault is 0 for the store and 1 for
   the request. After a refusal both buffers are as they were; else the new store and the answer stand in their first bytes, and a
   report of PEER_PUT_REPORT_BYTES or more has the new store's length behind the answer's. Of 14 for the new store's buffer and 14
   for the output the first comes first. */
#define PEER_PUT_REPORT_BYTES 32u

uint64_t peer_put(const uint8_t *store, size_t store_len,
                  const uint8_t *request, size_t request_len,
                  uint64_t guid_low, uint64_t guid_high,
                  uint8_t *new_store, size_t new_store_len,
                  uint8_t *out, size_t out_len,
                  uint8_t *report, size_t report_len);

/* Writes a put with this id and these elements, one behind the other, or none. The storage index that it expects is null if `named`
   is 0, whatever else is said of it; else its number may have 32 bits, and a larger one is 3, on no item and before all else. Then
   come the elements' faults, then 1 for a put that would itself be too long, and 14. */
uint64_t peer_ask_put(uint64_t id, uint64_t named, uint64_t guid_low, uint64_t guid_high, uint64_t number,
                      const uint8_t *elements, size_t elements_len,
                      uint8_t *out, size_t out_len,
                      uint8_t *report, size_t report_len);

/* Reads the answer to a put. The report has 0, the knowledge's place and its length, and one of PEER_READ_PUT_REPORT_BYTES or more
   has the id behind them. */
#define PEER_READ_PUT_REPORT_BYTES 32u

uint64_t peer_read_put(const uint8_t *answer, size_t answer_len,
                       uint8_t *report, size_t report_len);

#endif
