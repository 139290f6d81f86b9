/* Cases of an answer that is kept: `keep BOOK ANSWER LENGTH`, with the length of the new book's buffer, gives the new book. Buffer
   and report end at a protected page, and what the call has no right to touch is looked at. */
#include "hub.h"
#include "lend.h"
#include "lines.h"
#include "peer.h"
#include "spell.h"
#include "taken.h"

static struct block new_book_block, report_block;

void begin_keeps(void) {
    new_book_block = new_block(LONGEST_BYTES);
    report_block = new_block(HUB_REPORT_BYTES);
}

void keep_line(const struct given *g, struct text *told) {
    size_t room = (size_t)g->numbers[0];
    uint8_t *new_book = lend_filled(new_book_block, room), *report = lend_filled(report_block, HUB_REPORT_BYTES);
    uint64_t number = peer_keep(g->bytes[0], g->lengths[0], g->bytes[1], g->lengths[1], new_book, room, report, HUB_REPORT_BYTES);
    uint64_t length = number == 0 ? hub_report_number(report, HUB_AT_LENGTH) : 0;
    if (!kept_beside(new_book_block, room, length) || !kept_beside(report_block, HUB_REPORT_BYTES, HUB_REPORT_BYTES)) {
        spell_words(told, "touched");
    } else if (number != 0) {
        spell_report(told, number, report);
    } else {
        spell_words(told, "ok");
        spell_hex(told, new_book, (size_t)length);
    }
}
