/* A filter for tests of the bench's calls exported to C: each line of the input is one case of crates/cases/README.md, `ask`,
   `read`, `received` or `element`, and gives the line of output that is written there. Instead of it come:
   - `touched` if a byte was changed that the call may not change, or a request is another with a report of another length;
   - `another input` if there is no refusal and the report does not begin with 0, after a request that is written with 0 and 0;
   - `outside` if an element is told that does not lie in what was handed in;
   - `bad` if the line is no case.
   Lines 494 to 684 of asking.in have padded numbers, each in every longer form: to 529 elements of stores, to 621 answers and
   their elements, all of which are taken; then requests to be written with padded filters or a padded knowledge, which is 3.
   The first argument is the report's length, 88 if there is none. With a report of under 88 bytes an answer that is read gives
   only `ok PLACE LENGTH`, its knowledge's; with one of under 24 bytes every line is only `ok` or `no NUMBER`. The second
   argument is the kind that stands for an answer, 1 if there is none. */
#include "../include/hub.h"
#include "lent.h"
#include "lines.h"

#include <stdio.h>
#include <stdlib.h>
#include <string.h>

static size_t report_length = HUB_READ_REPORT_BYTES;
static uint64_t answer_kind = HUB_IN_ANSWER;

/* How many bytes of a report a call tells that has `most` to tell if it does not refuse. */
static size_t told(uint64_t number, struct lent report, size_t most) {
    if (number == 0 && report.length >= most) {
        return most;
    }
    return report.length >= HUB_REPORT_BYTES ? HUB_REPORT_BYTES : 0;
}

/* Says a result of which there is no more to say than the report: whether that was all. */
static int said(uint64_t number, struct lent out, size_t written, struct lent report, size_t most) {
    size_t n = told(number, report, most);
    if (!kept_behind(report, n) || !kept_behind(out, written)) {
        printf("touched\n");
    } else if (n == 0) {
        say_number_only(number);
    } else if (number != 0) {
        say_refusal(number, front_of(report));
    } else {
        return 0;
    }
    return 1;
}

/* What is asked for. */
struct question {
    uint64_t id, limit;
    struct bytes filters, knowledge;
};

static uint64_t put(struct question q, struct lent out, struct lent report) {
    return hub_ask(q.id, q.limit, q.filters.at, q.filters.length, q.knowledge.at, q.knowledge.length, front_of(out), out.length,
                   front_of(report), report.length);
}

/* How long a request is of which the report told nothing: it is asked for again with a report that tells, and is to be the same.
   If it is not, more than the output has. */
static size_t told_again(struct question q, struct lent out) {
    struct lent other = lend(out.length), report = lend(HUB_READ_REPORT_BYTES);
    size_t length = out.length + 1;
    if (put(q, other, report) == HUB_DONE) {
        uint64_t n = number_in(front_of(report) + HUB_AT_LENGTH);
        if (n <= out.length && memcmp(front_of(out), front_of(other), (size_t)n) == 0) {
            length = (size_t)n;
        }
    }
    give_back(other);
    give_back(report);
    return length;
}

/* How much of the output a request takes: nothing after a refusal. */
static size_t taken(struct question q, uint64_t number, struct lent out, struct lent report) {
    if (number != 0) {
        return 0;
    }
    if (told(number, report, HUB_REPORT_BYTES) == 0) {
        return told_again(q, out);
    }
    return (size_t)number_in(front_of(report) + HUB_AT_LENGTH);
}

static void ask(struct question q, size_t room) {
    struct lent out = lend(room), report = lend(report_length);
    uint64_t number = put(q, out, report);
    size_t length = taken(q, number, out, report);
    const uint8_t *p = front_of(report);
    if (!said(number, out, length, report, HUB_REPORT_BYTES)) {
        if (number_in(p + HUB_AT_INPUT) != 0 || number_in(p + HUB_AT_PLACE) != 0) {
            printf("another input\n");
        } else {
            printf("ok ");
            say_hex(front_of(out), length);
            printf("\n");
        }
    }
    give_back(out);
    give_back(report);
}

/* What came in an answer: id and mark, the storage index (its GUID as it is sent), the elements, the knowledge. */
static void say_received(const uint8_t *report) {
    printf("ok");
    say_number(number_in(report + HUB_AT_ID));
    say_number(number_in(report + HUB_AT_PARTIAL));
    say_number(number_in(report + HUB_AT_NAMED));
    printf(" ");
    say_hex(report + HUB_AT_GUID_LOW, 16);
    say_number(number_in(report + HUB_AT_GUID_NUMBER));
    say_number(number_in(report + HUB_AT_ELEMENTS));
    say_number(number_in(report + HUB_AT_COUNT));
    say_number(number_in(report + HUB_AT_PLACE));
    say_number(number_in(report + HUB_AT_LENGTH));
    printf("\n");
}

static void read_one(struct bytes answer) {
    struct lent none = lend(0), report = lend(report_length);
    uint64_t number = hub_read(answer.at, answer.length, front_of(report), report.length);
    const uint8_t *p = front_of(report);
    if (!said(number, none, 0, report, HUB_READ_REPORT_BYTES)) {
        if (number_in(p + HUB_AT_INPUT) != 0) {
            printf("another input\n");
        } else if (report.length >= HUB_READ_REPORT_BYTES) {
            say_received(p);
        } else {
            printf("ok");
            say_number(number_in(p + HUB_AT_PLACE));
            say_number(number_in(p + HUB_AT_LENGTH));
            printf("\n");
        }
    }
    give_back(none);
    give_back(report);
}

static void element(uint64_t kind, struct bytes from, uint64_t position) {
    struct lent none = lend(0), report = lend(report_length);
    uint64_t number = hub_element(kind, from.at, from.length, position, front_of(report), report.length);
    const uint8_t *p = front_of(report);
    if (!said(number, none, 0, report, HUB_REPORT_BYTES)) {
        uint64_t place = number_in(p + HUB_AT_PLACE), length = number_in(p + HUB_AT_LENGTH);
        if (number_in(p + HUB_AT_INPUT) != 0) {
            printf("another input\n");
        } else if (place > from.length || length > from.length - place) {
            printf("outside\n");
        } else {
            printf("ok ");
            say_hex(from.at + place, (size_t)length);
            printf("\n");
        }
    }
    give_back(none);
    give_back(report);
}

/* Runs the case of these words, if it is one. The bytes that a call is handed stand in word 1, for `ask` in 3 and 4. */
static int run_case(char **words, size_t n) {
    int asks = n == 6 && strcmp(words[0], "ask") == 0, reads = n == 2 && strcmp(words[0], "read") == 0;
    int receives = n == 3 && strcmp(words[0], "received") == 0, finds = n == 3 && strcmp(words[0], "element") == 0;
    if (!asks && !reads && !receives && !finds) {
        return 0;
    }
    struct bytes first = spelled(words[asks ? 3 : 1]), second = spelled(asks ? words[4] : "-");
    int good = first.good && second.good;
    if (good && asks) {
        struct question q = {strtoull(words[1], NULL, 10), strtoull(words[2], NULL, 10), first, second};
        ask(q, (size_t)strtoull(words[5], NULL, 10));
    } else if (good && reads) {
        read_one(first);
    } else if (good) {
        element(finds ? HUB_IN_STORE : answer_kind, first, strtoull(words[2], NULL, 10));
    }
    free(first.at);
    free(second.at);
    return good;
}

int main(int count, char **arguments) {
    char *line, *words[7];
    if (count > 1) {
        report_length = (size_t)strtoull(arguments[1], NULL, 10);
    }
    if (count > 2) {
        answer_kind = strtoull(arguments[2], NULL, 10);
    }
    while ((line = next_line()) != NULL) {
        if (!run_case(words, words_of(line, words, 7))) {
            printf("bad\n");
        }
        free(line);
    }
    return 0;
}
