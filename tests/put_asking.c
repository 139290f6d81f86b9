/* hub_ask_put and hub_read_put held to their limits: the put that is written, with each form of the storage index that is expected,
   puts of 16,777,216 bytes and one more, answers of 16,842,752 and one more, reports, empty slices. A line for each thing that is
   tried; put_limits.c says which are `document 01`, `document 02` and `beside it`. The exit status is 1 if a line is not ok. */
#include "../include/hub.h"
#include "build.h"
#include "damage.h"
#include "limits.h"
#include "puts.h"
#include "told.h"

#include <stdio.h>
#include <stdlib.h>
#include <string.h>

static const struct result too_long = {HUB_INPUT_TOO_LONG, 0, LONGEST, 0}, too_long_itself = {HUB_INPUT_TOO_LONG, 0, 0, 0};

/* n elements of 46 bytes. */
static struct text some(unsigned n) {
    struct text elements = {0};
    add_elements(&elements, 1, OTHERS, 1000, n);
    return elements;
}

/* ---- puts written */

static int needs(struct put_asked a, size_t room, uint64_t length) {
    struct result r = {HUB_OUTPUT_TOO_SHORT, 0, 0, length};
    a.room = room;
    return ask_put_refused(a, r);
}

static int fits(struct put_asked a, size_t room, struct text request) {
    a.room = room;
    return put_written(a, request);
}

static void puts_written(void) {
    struct put_asked nothing = asking_put(some(0)), two = asking_put(some(2)), first = two;
    struct text empty = put_of(1, 0), both = put_of(1, 2), expects = put_around(1, some(2));
    beside("a put of nothing: 44 bytes", empty.length == 44 && fits(nothing, 44, empty) && fits(nothing, 4096, empty));
    beside("room for 43 is refused, needed 44", needs(nothing, 43, 44) && needs(nothing, 0, 44));
    beside("two elements: 92 bytes more", fits(two, 136, both) && needs(two, 135, 136));
    first.named = 1;
    first.low = first.high = HALF_OF_IDS;
    first.number = 1;
    beside("a storage index: 16 bytes more", fits(first, 152, expects) && needs(first, 151, 152));
    first.named = UINT64_MAX;
    beside("it is named by any number but 0", fits(first, 152, expects));
    first.named = 0;
    first.number = UINT64_MAX;
    beside("with 0 nothing of it counts", fits(first, 136, both));
}

/* The id at 26 of a put, in a data run whose length stands at 24, one bit up. */
static void ids_written(void) {
    struct put_asked a = asking_put(some(0));
    struct text request = put_of(1, 0), greatest = {0}, base = without(request, 26, 1);
    a.id = 0;
    beside("the id 0", put_written(a, put(request, 26, 0)));
    add_compact(&greatest, UINT64_MAX);
    base.at[24] = (2 + 9) << 1;
    a.id = UINT64_MAX;
    beside("the id 2^64-1", put_written(a, with(base, 26, greatest)));
}

/* Whether the index with this number is written as these bytes before its GUID and behind it. It stands at 34 of a put, in a data
   run whose length stands at 31, one bit up. */
static int index_written(uint64_t number, struct text before, struct text behind) {
    struct put_asked a = asking_put(some(0));
    struct text form = {0}, base = without(put_of(1, 0), 34, 1);
    a.named = 1;
    a.low = 0x0807060504030201u;
    a.high = 0x100F0E0D0C0B0A09u;
    a.number = number;
    add_text(&form, &before);
    for (unsigned i = 1; i <= 16; i++) {
        add_byte(&form, i);
    }
    add_text(&form, &behind);
    base.at[31] = (uint8_t)((2 + form.length) << 1);
    return put_written(a, with(base, 34, form));
}

/* The low bits tell the form: 4 of 5 bits, 0x20 of 10, 0x40 of 17, and 0x80 with the 32 bits behind the GUID. */
static int in_form(uint64_t number, size_t bytes, unsigned low_bits, uint64_t form) {
    struct text before = {0}, behind = {0};
    add_le(&before, bytes, number << low_bits | form);
    return index_written(number, before, behind);
}

static int in_32_bits(uint64_t number) {
    struct text before = {0}, behind = {0};
    add_byte(&before, 0x80);
    add_le(&behind, 4, number);
    return index_written(number, before, behind);
}

static void indexes_written(void) {
    paper("an index of 5 bits", in_form(0, 1, 3, 4) && in_form(1, 1, 3, 4) && in_form(0x1F, 1, 3, 4));
    paper("of 10 bits", in_form(0x20, 2, 6, 0x20) && in_form(0x3FF, 2, 6, 0x20));
    paper("of 17 bits", in_form(0x400, 3, 7, 0x40) && in_form(0x1FFFF, 3, 7, 0x40));
    paper("of 32 bits", in_32_bits(0x20000) && in_32_bits(0xFFFFFFFFu));
    struct put_asked zero = asking_put(some(0));
    struct text guid = {0}, base = put(without(put_of(1, 0), 34, 1), 31, 19 << 1);
    zero.named = 1;
    add_byte(&guid, 4);
    add_like(&guid, 16, 0);
    beside("a zero GUID with the number 0 is not null", put_written(zero, with(base, 34, guid)));
}

/* ---- the longest */

/* An element with a long object inside, n bytes long. */
static struct text long_element(size_t n) {
    struct text elements = {0};
    add_element(&elements, 1, OTHERS, 1000, n - 54);
    return elements;
}

static void longest_put_written(void) {
    struct text longest = long_element(LONGEST - 44), over = long_element(LONGEST - 43), fault = put(over, 45, 0xFF);
    struct text request = put_around(0, exact(longest)), noise = {0};
    struct put_asked a = asking_put(longest), b = asking_put(over), c = asking_put(fault), named = a;
    beside("it is as long as it should be", longest.length == LONGEST - 44 && request.length == LONGEST);
    document_02("a put of 16,777,216 bytes written", fits(a, LONGEST, request));
    beside("no room for it", needs(a, LONGEST - 1, LONGEST));
    document_02("a put of 16,777,217 bytes", ask_put_refused(b, too_long_itself));
    b.room = 0;
    beside("and with no room", ask_put_refused(b, too_long_itself));
    named.named = 1;
    beside("an index makes it too long", ask_put_refused(named, too_long_itself));
    beside("the elements' faults come before", ask_put_refused(c, refusal(HUB_WRONG_END, 0, 45)));
    add_like(&noise, LONGEST + 1, 0xFF);
    paper("elements of 16,777,217 bytes", ask_put_refused(asking_put(noise), too_long));
    noise.length--;
    paper("elements of 16,777,216 bytes", ask_put_refused(asking_put(noise), refusal(HUB_WRONG_END, 0, 0)));
    free(longest.at);
    free(over.at);
    free(fault.at);
    free(request.at);
    free(noise.at);
}

/* An answer of exactly n bytes: a knowledge of another kind, that holds one plain object. 33 bytes are around that, and 32 more. */
static struct text long_answer_to_put(size_t n) {
    struct text knowledge = other_knowledge(0), inside = {0};
    add_start(&inside, INSIDE, 0, n - 65);
    add_like(&inside, n - 65, 0x77);
    return put_answer_with(with(knowledge, 22, inside));
}

static void longest_answer_read(void) {
    size_t n = HUB_LONGEST_ANSWER_READ;
    struct text answer = long_answer_to_put(n), over = long_answer_to_put(n + 1), noise = {0};
    struct result past = {HUB_INPUT_TOO_LONG, 0, n, 0};
    add_like(&noise, n + 1, 0xFF);
    beside("they are as long as they should be", answer.length == n && over.length == n + 1);
    paper("an answer to a put of 16,842,752 bytes", put_answer_read(answer, n - 32));
    paper("an answer to a put of 16,842,753 bytes", read_put_refused(over, past));
    beside("before the answer's other faults", read_put_refused(noise, past));
    free(answer.at);
    free(over.at);
    free(noise.at);
}

/* ---- answers read: what is told, and padding, which is no fault of an answer */

static void answers_read(void) {
    struct text answer = told_from(3, 5), empty = put_answer(NULL, 0), greatest = {0}, base = without(answer, 25, 1);
    struct result told = {HUB_DONE, 0, 28, 48}, behind = {HUB_DONE, 0, 36, 48};
    beside("an answer: its knowledge and its id", put_answer_read(answer, 48));
    beside("an empty knowledge", put_answer_read(empty, 3));
    beside("a padded id", read_put_gives(put(answer, 25, 0x01), HUB_READ_PUT_REPORT_BYTES, told, 0));
    beside("a range from a padded 0", put_answer_read(put(answer, 70, 0x01), 48));
    beside("other bits of the status bytes", put_answer_read(put(put(answer, 16, 0xFE), 27, 0xFE), 48));
    add_compact(&greatest, UINT64_MAX);
    base.at[23] = (2 + 9) << 1;
    beside("the id 2^64-1", read_put_gives(with(base, 25, greatest), HUB_READ_PUT_REPORT_BYTES, behind, UINT64_MAX));
}

/* ---- reports, and empty slices */

/* A put written, and one refused, with a report of this length; an answer read, and one refused. */
static int all_reported(size_t length) {
    struct put_asked a = asking_put(some(1)), b = a;
    struct text answer = told_from(3, 5);
    struct result told = {HUB_DONE, 0, 28, 48}, short_by_one = {HUB_OUTPUT_TOO_SHORT, 0, 0, 90};
    a.report = b.report = length;
    b.room = 89;
    int good = put_written(a, put_of(1, 1)) && ask_put_refused(b, short_by_one);
    good = good && read_put_gives(answer, length, told, 1);
    return good && read_put_gives(cut(answer, 78), length, refusal(HUB_RUNS_PAST, 0, 78), 0);
}

static void reports(void) {
    beside("no report", all_reported(0));
    beside("reports of 23 bytes", all_reported(HUB_REPORT_BYTES - 1));
    beside("reports of 24 bytes", all_reported(HUB_REPORT_BYTES));
    beside("reports of 31 bytes", all_reported(HUB_READ_PUT_REPORT_BYTES - 1));
    beside("reports of 32 bytes", all_reported(HUB_READ_PUT_REPORT_BYTES));
    beside("reports of 40 bytes", all_reported(40));
}

static void empty_slices(void) {
    beside("a put, and three null pointers", hub_ask_put(1, 0, 0, 0, 0, NULL, 0, NULL, 0, NULL, 0) == HUB_OUTPUT_TOO_SHORT);
    beside("an answer to one, and two null pointers", hub_read_put(NULL, 0, NULL, 0) == HUB_RUNS_PAST);
}

int main(void) {
    puts_written();
    ids_written();
    indexes_written();
    longest_put_written();
    longest_answer_read();
    answers_read();
    reports();
    empty_slices();
    return ended();
}
