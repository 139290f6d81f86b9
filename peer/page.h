/* One page (document 01, with the groups of document 02): which wanted elements an answer carries. */
#ifndef PEER_PAGE_H
#define PEER_PAGE_H

#include "groups.h"
#include "request.h"

/* A page under way. The ranges that it carries are those of the request, grown by what it took. */
struct page {
    unsigned count;   /* of groups */
    uint64_t bytes;   /* of elements */
    uint64_t ranges;  /* bytes of the ranges */
    size_t around;    /* bytes of the answer beside the elements and the knowledge */
    size_t length;    /* of the answer */
    unsigned partial; /* a wanted group remains */
    unsigned sent;    /* elements that go out, and the row of each in turn: a group's may stand apart */
    uint16_t rows[MOST_ELEMENTS];
};

/* Decides the longest page: 0, or 9, or 14 with the length needed in the page. */
unsigned decide_page(struct page *page, const struct groups *groups, struct asked *asked, size_t around, uint64_t room);

#endif
