/* A hub that lies about puts, for tests of the player: it takes the place of player/put.c, which it holds, and hands the program's
   calls of hub_put to one of its own. What it does is named by the variable LIE:
   - index: the store has another storage index than any that is expected;
   - id: an answer to another put;
   - unread: a byte of the answer is wrong;
   - store: a byte of the new store is wrong;
   - room: a buffer is too short, however long both are. */
#include "../include/hub.h"

#include <stdlib.h>
#include <string.h>

static int lies(const char *what) {
    const char *lie = getenv("LIE");
    return lie != NULL && strcmp(lie, what) == 0;
}

static uint64_t false_put(const uint8_t *store, size_t store_len, const uint8_t *request, size_t request_len, uint64_t guid_low,
                          uint64_t guid_high, uint8_t *new_store, size_t new_store_len, uint8_t *out, size_t out_len,
                          uint8_t *report, size_t report_len) {
    uint64_t number = lies("index") ? HUB_OTHER_INDEX
                                    : hub_put(store, store_len, request, request_len, guid_low, guid_high, new_store,
                                              new_store_len, out, out_len, report, report_len);
    if (number != HUB_DONE) {
        return number;
    }
    if (lies("id")) {
        out[25] ^= 0x10; /* behind versions, signature, response, package and the header of the sub-response */
    } else if (lies("unread")) {
        out[0] = 0;
    } else if (lies("store")) {
        new_store[0] = 0;
    } else if (lies("room")) {
        report[HUB_AT_LENGTH + 2]++;
        number = HUB_OUTPUT_TOO_SHORT;
    }
    return number;
}

#define hub_put false_put
#include "../player/put.c"
