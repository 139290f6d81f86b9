/* A filter for tests of the two calls of a hub that answer a query: each line of the input is one case (crates/cases/README.md)
   and gives one line of output.
   - `write STOREHEX REQUESTHEX OUTLEN STORETABLELEN KNOWTABLELEN` calls hub_write, and then hub_length with OUTLEN offered: `ok
     ANSWERHEX`, or `no NUMBER INPUT PLACE NEEDED`; `differs` if hub_length tells anything else than hub_write.
   - `length STOREHEX REQUESTHEX OFFERED STORETABLELEN KNOWTABLELEN` calls hub_length: `ok LENGTH`, or `no ..` as above.
   `touched` comes if a byte was changed that a call may not change, and `bad` if the line is no case. The calls have tables of
   their own, so the last two words are passed over. Lines 326 to 487 of answers.in have padded numbers, each in every longer
   form: to 376 a type, the true lengths of an element, of objects inside it and of the package, which go out as they are stored;
   to 485 each number of a request, the user agent's own true length and those of what is passed over in one, which is 3; then a
   fault of the store before that 3, and that 3 before 14. The argument is the report's length, 24 if there is none; with a report
   of under 24 bytes the line is only `ok` or `no NUMBER`. */
#include "../include/hub.h"
#include "lent.h"
#include "lines.h"

#include <stdio.h>
#include <stdlib.h>
#include <string.h>

/* What a line hands to a call: `room` is the output's length, or what is offered. */
struct handed {
    struct bytes store, request;
    uint64_t room;
    size_t report_length;
};

/* How many bytes of a report are written to. */
static size_t told_bytes(struct lent report) {
    return report.length >= HUB_REPORT_BYTES ? HUB_REPORT_BYTES : 0;
}

/* Whether only what may be written was written to: the report's three numbers and, after 0, as much of the output as they tell.
   With a short report nothing tells how much of the output is the answer's. */
static int all_kept(uint64_t number, struct lent out, struct lent report) {
    size_t told = told_bytes(report), written = 0;
    if (number == 0) {
        written = told == 0 ? out.length : (size_t)number_in(front_of(report) + HUB_AT_LENGTH);
    }
    return kept_behind(report, told) && kept_behind(out, written);
}

/* One line for a result that is told whole: after 0 the answer, or its length where there is no output. */
static void say_all(uint64_t number, const struct lent *out, const uint8_t *report) {
    size_t length = (size_t)number_in(report + HUB_AT_LENGTH);
    if (number != 0) {
        say_refusal(number, report);
    } else if (out == NULL) {
        printf("ok %zu\n", length);
    } else {
        printf("ok ");
        say_hex(front_of(*out), length);
        printf("\n");
    }
}

static void say_result(uint64_t number, const struct lent *out, struct lent report) {
    if (told_bytes(report) == 0) {
        say_number_only(number);
    } else {
        say_all(number, out, front_of(report));
    }
}

static uint64_t ask_length(struct handed h, struct lent report) {
    return hub_length(h.store.at, h.store.length, h.request.at, h.request.length, h.room, front_of(report), report.length);
}

/* Whether hub_length tells, with as much offered, what hub_write told: the same number and the same report, to its last byte. */
static int same_told(struct handed h, uint64_t number, struct lent report) {
    struct lent other = lend(h.report_length);
    int same = ask_length(h, other) == number && memcmp(other.all, report.all, report.length + 2 * AROUND) == 0;
    give_back(other);
    return same;
}

static void write_it(struct handed h) {
    struct lent out = lend((size_t)h.room), report = lend(h.report_length);
    uint64_t number = hub_write(h.store.at, h.store.length, h.request.at, h.request.length, front_of(out), out.length,
                                front_of(report), report.length);
    if (!all_kept(number, out, report)) {
        printf("touched\n");
    } else if (!same_told(h, number, report)) {
        printf("differs\n");
    } else {
        say_result(number, &out, report);
    }
    give_back(out);
    give_back(report);
}

static void tell_length(struct handed h) {
    struct lent report = lend(h.report_length);
    uint64_t number = ask_length(h, report);
    if (kept_behind(report, told_bytes(report))) {
        say_result(number, NULL, report);
    } else {
        printf("touched\n");
    }
    give_back(report);
}

static void one_case(char *line, size_t report_length) {
    char *words[7];
    size_t count = words_of(line, words, 7);
    int writes = strcmp(words[0], "write") == 0;
    if (count != 6 || (!writes && strcmp(words[0], "length") != 0)) {
        printf("bad\n");
        return;
    }
    struct handed h = {spelled(words[1]), spelled(words[2]), strtoull(words[3], NULL, 10), report_length};
    if (!h.store.good || !h.request.good) {
        printf("bad\n");
    } else if (writes) {
        write_it(h);
    } else {
        tell_length(h);
    }
    free(h.store.at);
    free(h.request.at);
}

int main(int count, char **words) {
    size_t report_length = count > 1 ? (size_t)strtoull(words[1], NULL, 10) : HUB_REPORT_BYTES;
    char *line;
    while ((line = next_line()) != NULL) {
        one_case(line, report_length);
        free(line);
    }
    return 0;
}
