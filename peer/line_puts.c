/* Cases of a put that is taken: `put STORE REQUEST GUID LENGTH LENGTH`, with the hub's GUID and the lengths of the new store's
   buffer and of the output, gives the answer and the new store. Both buffers and the report end at a protected page, and what the
   call has no right to touch is looked at. */
#include "hub.h"
#include "lend.h"
#include "lines.h"
#include "peer.h"
#include "spell.h"
#include "taken.h"

static struct block new_store_block, out_block, report_block;

void begin_puts(void) {
    new_store_block = new_block(LONGEST_BYTES);
    out_block = new_block(LONGEST_BYTES);
    report_block = new_block(PEER_PUT_REPORT_BYTES);
}

void put_line(const struct given *g, struct text *told) {
    size_t new_store_room = (size_t)g->numbers[0], room = (size_t)g->numbers[1];
    uint8_t *new_store = lend_filled(new_store_block, new_store_room), *out = lend_filled(out_block, room);
    uint8_t *report = lend_filled(report_block, PEER_PUT_REPORT_BYTES);
    uint64_t number = peer_put(g->bytes[0], g->lengths[0], g->bytes[1], g->lengths[1], guid_half(g, 0), guid_half(g, 8), new_store,
                               new_store_room, out, room, report, PEER_PUT_REPORT_BYTES);
    uint64_t length = number == 0 ? hub_report_number(report, HUB_AT_LENGTH) : 0;
    uint64_t new_length = number == 0 ? hub_report_number(report, HUB_REPORT_BYTES) : 0;
    if (!kept_beside(out_block, room, length) || !kept_beside(new_store_block, new_store_room, new_length) ||
        !kept_beside(report_block, PEER_PUT_REPORT_BYTES, number == 0 ? PEER_PUT_REPORT_BYTES : HUB_REPORT_BYTES)) {
        spell_words(told, "touched");
    } else if (number != 0) {
        spell_report(told, number, report);
    } else {
        spell_words(told, "ok");
        spell_hex(told, out, (size_t)length);
        spell_hex(told, new_store, (size_t)new_length);
    }
}
