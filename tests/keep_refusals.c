/* The faults of a book and of an answer, as hub_keep tells them: exactly those that hub_element tells for a store and hub_read for
   an answer, with the same places, the book's before the answer's. Each byte of a book and of an answer is changed to every other,
   each is cut at every place, and a byte is put behind; a few refusals are named besides. The exit status is 1 if a line is not
   ok. */
#include "../include/hub.h"
#include "build.h"
#include "damage.h"
#include "keeps.h"
#include "limits.h"
#include "told.h"

#include <stdio.h>
#include <stdlib.h>
#include <string.h>

static unsigned long refusals, taken; /* how many inputs were refused, and how many were not */

/* What a store is refused with, if it is: a position that no element has falls on no item, and is no fault of the store. */
static struct result judged_store(struct text store) {
    uint8_t report[HUB_REPORT_BYTES] = {0};
    struct result r = {0, 0, 0, 0};
    r.number = hub_element(HUB_IN_STORE, store.at, store.length, UINT64_MAX, report, sizeof report);
    r.place = number_in(report + HUB_AT_PLACE);
    r.number = r.number == HUB_TOO_MANY && r.place == 0 ? HUB_DONE : r.number;
    return r;
}

/* And an answer, which is the second input. */
static struct result judged_answer(struct text answer) {
    uint8_t report[HUB_REPORT_BYTES] = {0};
    struct result r = {0, 1, 0, 0};
    r.number = hub_read(answer.at, answer.length, report, sizeof report);
    r.place = number_in(report + HUB_AT_PLACE);
    return r;
}

/* Whether hub_keep tells the fault, if there is one, and leaves the buffer alone; without one it takes the input. */
static int same_fault(struct text book, struct text answer, struct result r) {
    struct lent room = lend(book.length + answer.length), report = lend(HUB_REPORT_BYTES);
    uint64_t got = hub_keep(book.at, book.length, answer.at, answer.length, front_of(room), room.length, front_of(report),
                            report.length);
    int good = r.number == HUB_DONE ? got == HUB_DONE : is_told(got, front_of(report), r) && kept_behind(room, 0);
    *(r.number == HUB_DONE ? &taken : &refusals) += 1;
    give_back(room);
    give_back(report);
    return good;
}

/* One of both damaged in each way. */
static int each_damage(struct text book, struct text answer, struct text *input, struct result (*judge)(struct text)) {
    size_t whole = input->length;
    int good = 1;
    for (size_t i = 0; i < whole; i++) {
        for (unsigned change = 1; change < 256; change++) {
            input->at[i] ^= (uint8_t)change;
            good = good && same_fault(book, answer, judge(*input));
            input->at[i] ^= (uint8_t)change;
        }
    }
    for (size_t length = 0; length < whole; length++) {
        struct text part = cut(*input, length);
        good = good && same_fault(input->at == book.at ? part : book, input->at == book.at ? answer : part, judge(part));
        free(part.at);
    }
    struct text more = put_behind(*input, 0x55);
    good = good && same_fault(input->at == book.at ? more : book, input->at == book.at ? answer : more, judge(more));
    free(more.at);
    return good;
}

/* Two elements in each, of which one id is in both, the second with an object inside. */
static void every_damage(void) {
    struct range known[1] = {{SERIALS, 7, 9}};
    struct text held = {0}, came = {0}, answer = {0};
    add_element(&held, 1, SERIALS, 7, 0);
    add_element(&held, 2, SERIALS, 8, 3);
    add_element(&came, 2, SERIALS, 9, 5);
    add_element(&came, 3, SERIALS, 9, 0);
    add_answer(&answer, came, 1, known, 1);
    struct text book = book_around(held);
    beyond("the faults of a book", each_damage(book, answer, &book, judged_store));
    beyond("the faults of an answer, as hub_read tells them", each_damage(book, answer, &answer, judged_answer));
    printf("%lu books and answers refused alike, and %lu taken\n", refusals, taken);
    beside("some of both", refusals > 10000 && taken > 10000);
    free(book.at);
    free(answer.at);
}

/* ---- a few by name: the elements of a book stand from 3 on, those of an answer from 20 on, each 46 bytes long */

static void by_name(void) {
    struct text one = store_of(7, 1), two = store_of(7, 2), single = answer_of(5, 7, 1), pair = answer_of(5, 7, 2), nothing = {0};
    struct text put_answer = {0};
    beyond("an id twice in the answer",
           keep_refused(keeping(one, put(pair, 68, 5 << 3 | 4)), refusal(HUB_SEEN_BEFORE, 1, 68)));
    beyond("an id twice in the book", keep_refused(keeping(put(two, 51, 1 << 3 | 4), single), refusal(HUB_SEEN_BEFORE, 0, 51)));
    beyond("a null id in the answer", keep_refused(keeping(one, null_id(single, 20)), refusal(HUB_NULL_NAME, 1, 22)));
    beyond("a null serial number in it", keep_refused(keeping(one, null_serial(single, 20)), refusal(HUB_NULL_NAME, 1, 39)));
    beyond("15 open objects inside", keep_refused(keeping(one, nested_at(single, 65, 15)), refusal(HUB_TOO_DEEP, 1, 65 + 28)));
    beyond("the other side failed", keep_refused(keeping(one, put(single, 16, 1)), refusal(HUB_WRONG_LAYOUT, 1, 16)));
    add_answer_front(&put_answer, nothing, PUT);
    add_knowledge(&put_answer, NULL, 0);
    add_answer_ends(&put_answer);
    beyond("an answer to a put", keep_refused(keeping(one, put_answer), refusal(HUB_NOT_SERVED, 1, 26)));
    struct text wrong = put(one, 0, 0), request = plain_request();
    beyond("both at fault: the book's", keep_refused(keeping(wrong, put(single, 0, 0)), judged_store(wrong)));
    beyond("a request is no answer", keep_refused(keeping(one, request), judged_answer(request)));
    beyond("and no book", keep_refused(keeping(request, single), judged_store(request)));
    beyond("an answer is no book", keep_refused(keeping(single, single), judged_store(single)));
}

int main(void) {
    every_damage();
    by_name();
    return ended();
}
