/* Cases from the field (field.h). They are read by the reader that the program in player/ has, so that a file means the same to
   both. */
#include "field.h"
#include "../player/replay.h"
#include "../player/status.h"
#include "stored_case.h"

struct course {
    size_t cases, differences, lent;
};

/* How many bytes of a report a call tells at most. */
static size_t told_by(enum stored_call call) {
    switch (call) {
    case CALL_READ:
        return HUB_READ_REPORT_BYTES;
    case CALL_PUT:
        return HUB_PUT_REPORT_BYTES;
    case CALL_READ_PUT:
        return HUB_READ_PUT_REPORT_BYTES;
    default:
        return HUB_REPORT_BYTES;
    }
}

/* One case by both, with reports of each length that makes a difference, which a line does not tell, and with each number that
   is not 0 for a kind, or for whether a storage index is expected. The first report is as long as what is told, so that a
   difference is shown with all of it. */
static int both_agree(const struct stored *s, struct outcome *o) {
    const size_t told = told_by(s->call), reports[] = {told, 0, 8, 23, 24, 25, told - 1, told + 1, 100};
    static const uint64_t numbers[] = {1, 2, UINT64_MAX};
    struct one_case c = case_of(s);
    struct outcome other;
    size_t i, k, last = s->kind != 0 || s->named != 0 ? 3 : 1;
    for (i = 0; i < sizeof reports / sizeof *reports; i++) {
        for (k = 0; k < last; k++) {
            c.report = reports[i];
            c.kind = s->kind == 0 ? 0 : numbers[k];
            c.named = s->named == 0 ? 0 : numbers[k];
            if (!agree(&c, i + k == 0 ? o : &other)) {
                return 0;
            }
        }
    }
    return 1;
}

static size_t current_line; /* of the case under way, 0 while there is none */

static void say_differ(size_t line) {
    printf("library and peer differ in line %zu\n", line);
}

void say_field_stopped(void) {
    if (current_line > 0) {
        say_differ(current_line);
    }
}

/* What the library's account finds wrong does not keep the peer from its word. */
static int by_both(const struct stored *s, void *with) {
    struct course *course = with;
    struct outcome o;
    int status;
    current_line = s->line;
    status = replay_case(s);
    course->cases++;
    course->lent += s->lent != 0;
    if (both_agree(s, &o)) {
        printf("library and peer agree: number %llu, report %llu %llu %llu\n", (unsigned long long)o.number,
               (unsigned long long)o.input, (unsigned long long)o.place, (unsigned long long)o.length);
    } else {
        course->differences++;
        say_differ(s->line);
    }
    current_line = 0;
    return status;
}

/* How many cases lend tables, in a file that is written only if some do: whether that was done. */
static int lent_told(const struct course *course, const char *name) {
    FILE *to;
    int good;
    if (name == NULL || course->lent == 0) {
        return 1;
    }
    to = fopen(name, "w");
    good = to != NULL && fprintf(to, "%zu\n", course->lent) > 0;
    return to != NULL && fclose(to) == 0 && good;
}

int field_cases(const char *name, const char *lent) {
    struct course course = {0, 0, 0};
    int status;
    begin_cases(STORED_LONGEST);
    status = stored_each(name, by_both, &course);
    if (course.cases > 0) {
        printf("cases by library and peer: %zu, with a difference: %zu\n", course.cases, course.differences);
    }
    if ((!lent_told(&course, lent) || fflush(stdout) != 0 || ferror(stdout)) && status == ENDED_WELL) {
        fprintf(stderr, "player: the output cannot be written\n");
        status = CANNOT_WRITE;
    }
    return course.differences > 0 ? 1 : status;
}
