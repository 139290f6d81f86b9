/* A hub that lies, for tests of the player: it takes the place of player/exchange.c and player/guarded.c, which it holds,
   and hands the program's calls of hub_length and hub_write to two of its own. What these do is named by the variable LIE:
   - partial: an answer that is marked partial and has nothing in it, again and again, as the hub that this project began with;
   - id: an answer to another ask;
   - room: the output is too short, however long it is;
   - less, more: the length that is told is a byte less, or a byte more, than the answer has;
   - unread: a byte of the answer is wrong;
   - padded: the first range of the knowledge begins at a padded 0;
   - touch: a refusal that leaves a changed byte in the output. */
#include "../include/hub.h"

#include <stdlib.h>
#include <string.h>

static int lies(const char *what) {
    const char *lie = getenv("LIE");
    return lie != NULL && strcmp(lie, what) == 0;
}

/* Where the knowledge of an answer stands: right behind the byte with the mark. */
static size_t knowledge_place(const uint8_t *answer, const uint8_t *report) {
    uint8_t told[HUB_REPORT_BYTES] = {0};
    hub_read(answer, (size_t)report[HUB_AT_LENGTH] + 256u * report[HUB_AT_LENGTH + 1], told, sizeof told);
    return (size_t)told[HUB_AT_PLACE] + 256u * told[HUB_AT_PLACE + 1];
}

/* The store of an answer with nothing in it. */
static const uint8_t empty[4] = {0xAC, 0x02, 0x00, 0x55};

static uint64_t false_length(const uint8_t *store, size_t store_len, const uint8_t *request, size_t request_len, uint64_t offered,
                             uint8_t *report, size_t report_len) {
    int partial = lies("partial");
    uint64_t number = hub_length(partial ? empty : store, partial ? sizeof empty : store_len, request, request_len, offered, report,
                                 report_len);
    if (number == HUB_DONE && lies("less")) {
        report[HUB_AT_LENGTH]--; /* no borrow: the lowest byte of the lengths that are tried is not 0 */
    } else if (number == HUB_DONE && lies("more")) {
        report[HUB_AT_LENGTH]++;
    }
    return number;
}

static uint64_t false_write(const uint8_t *store, size_t store_len, const uint8_t *request, size_t request_len, uint8_t *out,
                            size_t out_len, uint8_t *report, size_t report_len) {
    int partial = lies("partial");
    uint64_t number = hub_write(partial ? empty : store, partial ? sizeof empty : store_len, request, request_len, out, out_len,
                                report, report_len);
    if (number == HUB_DONE && lies("partial")) {
        out[knowledge_place(out, report) - 1] = 1;
    } else if (number == HUB_DONE && lies("id")) {
        /* With a null storage index the id stands 9 bytes before the knowledge: id, type, status, header of 4, null, mark. */
        out[knowledge_place(out, report) - 9] ^= 0x10;
    } else if (number == HUB_DONE && lies("room")) {
        report[HUB_AT_LENGTH + 1]++;
        number = HUB_OUTPUT_TOO_SHORT;
    } else if (number == HUB_DONE && lies("unread")) {
        out[0] = 0;
    } else if (number == HUB_DONE && lies("padded")) {
        /* The range's from stands 42 bytes behind: knowledge 2, specialized knowledge 20, cell knowledge 2, range 2, GUID 16. */
        out[knowledge_place(out, report) + 42] = 0x01;
    } else if (number != HUB_DONE && lies("touch")) {
        out[out_len / 2] ^= 1;
    }
    return number;
}

#define hub_length false_length
#define hub_write false_write
#include "../player/exchange.c"
#include "../player/guarded.c"
