/* The longest page. Groups are gone through once, each at its first row. A group is priced before it is taken, since a range that
   was joined cannot be parted again. That a group is wanted may be asked of the grown ranges: what was added are serial numbers of
   other groups. */
#include "page.h"
#include "knowledge.h"

/* What one serial number makes of the ranges: how many there are then, and their bytes. */
struct price {
    unsigned count;
    uint64_t ranges;
};

static struct price price_of(const struct page *page, const struct ranges *set, struct fit fit, uint64_t number) {
    const struct range *row = set->rows + fit.row;
    struct price price;
    price.count = set->count;
    price.ranges = page->ranges;
    if (fit.before && fit.behind) {
        price.count--;
        price.ranges -= 18 + compact_length(row[-1].to) + compact_length(row->from);
    } else if (fit.before) {
        price.ranges = price.ranges + compact_length(number) - compact_length(row[-1].to);
    } else if (fit.behind) {
        price.ranges = price.ranges + compact_length(number) - compact_length(row->from);
    } else {
        price.count++;
        price.ranges += range_length(number, number);
    }
    return price;
}

static size_t answer_length(const struct page *page, uint64_t bytes, uint64_t ranges) {
    return page->around + (size_t)(bytes + knowledge_length(ranges));
}

/* No refusal, as a page of 1 has no limit. */
enum { OVER_LIMIT = 100 };

/* A group that is considered: its serial number, how many bytes its members have, and whether the filters let one of them in. */
struct group {
    const struct name *serial;
    uint64_t bytes;
    int in;
};

/* The group whose first row this is. */
static struct group group_at(const struct groups *groups, const struct choice *choice, unsigned row) {
    struct group group = {&element_at(groups, row)->serial, 0, 0};
    for (; row != NO_ROW; row = groups->next[row]) {
        group.bytes += element_at(groups, row)->length;
        group.in |= choice->in[groups->order->position[row]];
    }
    return group;
}

/* Takes one more wanted group, if the page with it is allowed; else 9, 14 or OVER_LIMIT. Its serial number would stand at this
   place among the ranges. */
static unsigned take(struct page *page, struct asked *asked, const struct group *group, unsigned place, uint64_t room) {
    struct fit fit = fit_of(&asked->known, place, group->serial->guid, group->serial->number);
    struct price price = price_of(page, &asked->known, fit, group->serial->number);
    uint64_t bytes = page->bytes + group->bytes;
    if (page->count > 0 && bytes > asked->limit) {
        return OVER_LIMIT;
    }
    if (price.count > MOST_RANGES) {
        return TOO_MANY;
    }
    page->length = answer_length(page, bytes, price.ranges);
    if (page->length > room) {
        return OUTPUT_TOO_SHORT;
    }
    page->count++;
    page->bytes = bytes;
    page->ranges = price.ranges;
    add_number(&asked->known, fit, group->serial->guid, group->serial->number);
    return 0;
}

/* All members of the group that was taken go out, those too that the filters put out. */
static void send_group(struct page *page, const struct groups *groups, unsigned row) {
    for (; row != NO_ROW; row = groups->next[row]) {
        page->rows[page->sent++] = (uint16_t)row;
    }
}

static void begin_page(struct page *page, const struct ranges *known, size_t around) {
    page->count = page->sent = 0;
    page->bytes = 0;
    page->ranges = ranges_length(known);
    page->around = around;
    page->partial = 0;
}

unsigned decide_page(struct page *page, const struct groups *groups, struct asked *asked, size_t around, uint64_t room) {
    unsigned row;
    begin_page(page, &asked->known, around);
    for (row = 0; row < groups->store->count; row++) {
        struct group group;
        unsigned place, fault;
        if (!groups->first[row]) {
            continue;
        }
        group = group_at(groups, &asked->choice, row);
        if (!group.in) {
            continue;
        }
        place = row_for(&asked->known, group.serial->guid, group.serial->number);
        if (row_has(&asked->known, place, group.serial->guid, group.serial->number)) {
            continue;
        }
        fault = take(page, asked, &group, place, room);
        if (fault != 0 && page->count == 0) {
            return fault;
        }
        if (fault != 0) {
            page->partial = 1;
            break;
        }
        send_group(page, groups, row);
    }
    page->length = answer_length(page, page->bytes, page->ranges);
    return page->length <= room ? 0 : OUTPUT_TOO_SHORT;
}
