/* The two that are compared: the library's nine calls and the peer's. Where the library cannot be linked (PEER_ALONE) the peer
   stands in its place. */
#ifndef PEER_SIDES_H
#define PEER_SIDES_H

#include "hub.h"
#include "peer.h"

struct side {
    uint64_t (*length)(const uint8_t *, size_t, const uint8_t *, size_t, uint64_t, uint8_t *, size_t);
    uint64_t (*write)(const uint8_t *, size_t, const uint8_t *, size_t, uint8_t *, size_t, uint8_t *, size_t);
    uint64_t (*ask)(uint64_t, uint64_t, const uint8_t *, size_t, const uint8_t *, size_t, uint8_t *, size_t, uint8_t *, size_t);
    uint64_t (*read)(const uint8_t *, size_t, uint8_t *, size_t);
    uint64_t (*element)(uint64_t, const uint8_t *, size_t, uint64_t, uint8_t *, size_t);
    uint64_t (*put)(const uint8_t *, size_t, const uint8_t *, size_t, uint64_t, uint64_t, uint8_t *, size_t, uint8_t *, size_t,
                    uint8_t *, size_t);
    uint64_t (*ask_put)(uint64_t, uint64_t, uint64_t, uint64_t, uint64_t, const uint8_t *, size_t, uint8_t *, size_t, uint8_t *,
                        size_t);
    uint64_t (*read_put)(const uint8_t *, size_t, uint8_t *, size_t);
    uint64_t (*keep)(const uint8_t *, size_t, const uint8_t *, size_t, uint8_t *, size_t, uint8_t *, size_t);
};

static const struct side sides[2] = {
#ifdef PEER_ALONE
    {peer_length, peer_write, peer_ask, peer_read, peer_element, peer_put, peer_ask_put, peer_read_put, peer_keep},
#else
    {hub_length, hub_write, hub_ask, hub_read, hub_element, hub_put, hub_ask_put, hub_read_put, hub_keep},
#endif
    {peer_length, peer_write, peer_ask, peer_read, peer_element, peer_put, peer_ask_put, peer_read_put, peer_keep},
};

#endif
