/* Cases of a store, a knowledge or a request, read whole. */
#include "knowledge.h"
#include "lines.h"
#include "objects.h"
#include "request.h"
#include "rows.h"
#include "spell.h"

#define LONGEST_RANGE 36u /* bytes */

static struct store elements;

/* The store that is given first, into the elements. */
static int reads_store(const struct given *g, struct text *told) {
    struct input in;
    return is_read(begin_bytes(&in, g, 0) && read_store(&in, &elements), told, &in, 0);
}

void store_line(const struct given *g, struct text *told) {
    uint64_t rows[ROWS_NEEDED];
    struct order order;
    if (!reads_store(g, told)) {
        return;
    }
    order_rows(&order, &elements);
    put_rows(rows, &elements, &order);
    spell_number(told, "ok ", elements.count);
    spell_rows(told, rows, elements.count, ROW_NUMBERS);
}

static void spell_ranges(struct text *told, const struct ranges *set) {
    uint64_t rows[RANGES_NEEDED];
    put_range_rows(rows, set);
    spell_rows(told, rows, set->count, RANGE_NUMBERS);
}

/* The knowledge that is given first, read as in an open sub-request, without padding; bytes may follow it. Its bytes, or 0 if its
   fault is spelled. */
static size_t reads_knowledge(const struct given *g, struct text *told, struct ranges *set) {
    struct input in;
    int good;
    set->count = 0;
    good = begin_bytes(&in, g, 0) && need_knowledge(&in, SUB_REQUEST, DEPTH, set, REQUEST_PADDING);
    return is_read(good, told, &in, 0) ? in.at : 0;
}

void knowledge_line(const struct given *g, struct text *told) {
    struct ranges set;
    size_t used = reads_knowledge(g, told, &set);
    if (used > 0) {
        spell_number(told, "ok ", used);
        spell_ranges(told, &set);
    }
}

void rewritten_line(const struct given *g, struct text *told) {
    uint8_t bytes[KNOWLEDGE_AROUND + MOST_RANGES * LONGEST_RANGE];
    struct ranges set;
    if (reads_knowledge(g, told, &set) > 0) {
        spell_written(told, bytes, put_knowledge(bytes, &set), g->numbers[0]);
    }
}

void known_line(const struct given *g, struct text *told) {
    struct ranges set;
    if (reads_knowledge(g, told, &set) > 0) {
        unsigned row = row_for(&set, g->guid, g->numbers[0]);
        spell_number(told, "ok ", row_has(&set, row, g->guid, g->numbers[0]) ? 1 : 0);
    }
}

/* The request that is given as this word, with its filters put to the elements of a store, if there is one. */
static int reads_request(const struct given *g, unsigned word, struct text *told, struct asked *asked, const struct store *store) {
    struct input in;
    return is_read(begin_bytes(&in, g, word) && read_request(&in, asked, store), told, &in, 1);
}

void chosen_line(const struct given *g, struct text *told) {
    struct asked asked;
    if (reads_store(g, told) && reads_request(g, 1, told, &asked, &elements)) {
        spell_words(told, "ok");
        spell_hex(told, asked.choice.in, elements.count);
    }
}

void request_line(const struct given *g, struct text *told) {
    struct asked asked;
    if (!reads_request(g, 0, told, &asked, NULL)) {
        return;
    }
    spell_number(told, "ok ", asked.id);
    spell_number(told, " ", asked.limit);
    spell_number(told, " ", asked.filters_at);
    spell_number(told, " ", asked.filters);
    spell_ranges(told, &asked.known);
}
