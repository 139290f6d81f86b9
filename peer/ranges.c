/* The sorted rows of ranges: found by halving, moved by memmove. */
#include "ranges.h"

#include <string.h>

static int guid_before(struct guid a, struct guid b) {
    return a.high < b.high || (a.high == b.high && a.low < b.low);
}

/* Whether a row ends before this number of this GUID. */
static int ends_before(const struct range *row, struct guid guid, uint64_t number) {
    return same_guid(row->guid, guid) ? row->to < number : guid_before(row->guid, guid);
}

unsigned row_for(const struct ranges *set, struct guid guid, uint64_t number) {
    unsigned low = 0, high = set->count;
    if (high > 0 && ends_before(&set->rows[high - 1], guid, number)) {
        return high; /* what comes in order costs one comparison */
    }
    while (low < high) {
        unsigned middle = (low + high) / 2;
        if (ends_before(&set->rows[middle], guid, number)) {
            low = middle + 1;
        } else {
            high = middle;
        }
    }
    return low;
}

/* Whether a row begins behind the range and does not touch it. Nothing follows 2^64-1. */
static int begins_behind(const struct range *row, const struct range *range) {
    if (!same_guid(row->guid, range->guid)) {
        return 1;
    }
    return range->to != UINT64_MAX && row->from > range->to + 1;
}

void add_range(struct ranges *set, const struct range *range) {
    struct range joined = *range;
    unsigned first = row_for(set, range->guid, range->from == 0 ? 0 : range->from - 1), last = first;
    while (last < set->count && !begins_behind(&set->rows[last], range)) {
        last++;
    }
    if (last > first) {
        const struct range *low = &set->rows[first], *high = &set->rows[last - 1];
        joined.from = low->from < range->from ? low->from : range->from;
        joined.to = high->to > range->to ? high->to : range->to;
    }
    if (last != first + 1 && last < set->count) {
        memmove(&set->rows[first + 1], &set->rows[last], (set->count - last) * sizeof *set->rows);
    }
    set->count = set->count + 1 - (last - first);
    set->rows[first] = joined;
}

/* The row before ends before the number and this one begins behind it, so that neither sum passes the ends of the numbers. */
struct fit fit_of(const struct ranges *set, unsigned row, struct guid guid, uint64_t number) {
    const struct range *at = set->rows + row;
    struct fit fit;
    fit.row = row;
    fit.before = row > 0 && same_guid(at[-1].guid, guid) && number - 1 == at[-1].to;
    fit.behind = row < set->count && same_guid(at->guid, guid) && number + 1 == at->from;
    return fit;
}

void add_number(struct ranges *set, struct fit fit, struct guid guid, uint64_t number) {
    struct range *at = set->rows + fit.row;
    size_t behind = (set->count - fit.row) * sizeof *at;
    if (fit.before && fit.behind) {
        at[-1].to = at->to;
        memmove(at, at + 1, behind - sizeof *at);
        set->count--;
    } else if (fit.before) {
        at[-1].to = number;
    } else if (fit.behind) {
        at->from = number;
    } else {
        memmove(at + 1, at, behind);
        at->guid = guid;
        at->from = at->to = number;
        set->count++;
    }
}
