/* Makes cases of the two answering calls with lent tables, for the program `cases` (crates/cases/README.md), which makes them with
   the library's own sources. The peer makes each call, on tables, output and inputs that end at a protected page, and what it has
   no right to touch is looked at. Written are files that go together, N.cases with the lines for the program, N.lines with what it
   has to print and N.names with which case each is: as many as are needed for each to be short enough. peer/tables.sh compares. The
   words: --cases N, --seed N, --into FOLDER, --save FILE, --replay FILE. The cases are generated, and the seed is printed; they go
   into files of a hundred, since the first that differs ends the comparison, and the program is slow. With --replay they are those
   of a file of stored cases that lend tables. A peer that touches more than it may ends the run with status 1, and its case is
   saved, if it is a generated one. */
#include "../player/status.h"
#include "generate.h"
#include "lent_answer.h"
#include "spell.h"
#include "stored_case.h"
#include "taken.h"

#include <signal.h>
#include <stdlib.h>
#include <string.h>

#define ROWS_NEEDED 1792u
#define RANGES_NEEDED 2048u
#define GENERATED_IN_A_FILE 100u

struct run {
    uint64_t seed, cases, done, answered, refused[16];
    uint64_t too_long; /* stored cases that the program does not take */
    const char *into, *save, *replay;
    unsigned files;
    size_t length;              /* of the lines in the file under way */
    FILE *lines, *told, *names; /* the files under way */
};

/* One case with its tables, whose lengths count numbers, and what the peer made of it. */
struct lent_case {
    char name[64]; /* as it is told: `case N of seed N`, or `line N` */
    struct one_case c;
    size_t rows_len, ranges_len;
    struct text line, told;
};

/* ---- lines */

static void spell_case(struct lent_case *k) {
    text_clear(&k->line);
    spell_words(&k->line, k->c.call == WRITE ? "write" : "length");
    spell_hex(&k->line, k->c.first.at, k->c.first.length);
    spell_hex(&k->line, k->c.second.at, k->c.second.length);
    spell_number(&k->line, " ", k->c.call == WRITE ? k->c.room : k->c.offered);
    spell_number(&k->line, " ", k->rows_len);
    spell_number(&k->line, " ", k->ranges_len);
    spell_words(&k->line, "\n");
}

/* ---- a peer that touches more than it may */

static struct run current_run;
static struct lent_case current_case;

/* A stored case has its file already, and it might be the one that would be written. */
static void give_up(const char *what) {
    FILE *to = current_run.replay == NULL ? fopen(current_run.save, "w") : NULL;
    printf("%s in %s\n", what, current_case.name);
    if (to != NULL && fwrite(current_case.line.at, current_case.line.length, 1, to) == 1) {
        printf("the case is saved as %s\n", current_run.save);
    }
    if (to != NULL) {
        fclose(to);
    }
    fflush(stdout);
    _Exit(1);
}

/* The signal comes out of a call, and not out of the driver's own output. */
static void stopped(int signal_number) {
    (void)signal_number;
    give_up("the peer reads or writes memory that was not lent to it");
}

/* ---- one case */

/* Tables of every kind, mostly long enough. */
static size_t some_table(struct luck *l, size_t needed) {
    static const size_t edges[] = {0, 1535, 1536, 1537, 1791, 1792, 1793, 2047, 2048, 2049, LONGEST_TABLE};
    switch (luck_below(l, 12)) {
    case 0:
        return edges[luck_below(l, sizeof edges / sizeof *edges)];
    case 1:
        return (size_t)luck_below(l, LONGEST_TABLE + 1);
    case 2:
    case 3:
    case 4:
        return needed + (size_t)luck_below(l, LONGEST_TABLE - needed + 1);
    default:
        return needed + (size_t)luck_below(l, 3);
    }
}

static void make_lent(struct luck *l, struct lent_case *k) {
    uint64_t seed = luck_next(l);
    enum way way = luck_one_in(l, 2) ? VALID : (enum way)luck_below(l, 4); /* only what is answered leaves rows */
    k->c.call = luck_one_in(l, 2) ? LENGTH : WRITE;
    make_inputs(l, &k->c, seed, way);
    lend_rooms(l, &k->c);
    if (k->c.room > LONGEST_BYTES) {
        k->c.room = LONGEST_BYTES;
    }
    k->rows_len = some_table(l, ROWS_NEEDED);
    k->ranges_len = some_table(l, RANGES_NEEDED);
}

/* ---- files */

static FILE *open_file(const struct run *r, const char *end) {
    char name[4096];
    FILE *to = NULL;
    if (snprintf(name, sizeof name, "%s/%u.%s", r->into, r->files, end) < (int)sizeof name) {
        to = fopen(name, "w");
    }
    if (to == NULL) {
        printf("the lines cannot be written into %s\n", r->into);
        exit(2);
    }
    return to;
}

static void end_files(struct run *r) {
    if (r->files == 0) {
        return;
    }
    if (fclose(r->lines) != 0 || fclose(r->told) != 0 || fclose(r->names) != 0) {
        printf("the lines cannot be written into %s\n", r->into);
        exit(2);
    }
}

/* Whether those under way have as many cases as they should, or would get too long. */
static int is_full(const struct run *r, const struct lent_case *k) {
    return (r->replay == NULL && r->done % GENERATED_IN_A_FILE == 0) || k->line.length > LONGEST_FILE - r->length;
}

/* The lines of one case, in new files if there is no room in those under way. */
static void write_lent(struct run *r, const struct lent_case *k) {
    if (r->files == 0 || is_full(r, k)) {
        end_files(r);
        r->files++;
        r->length = 0;
        r->lines = open_file(r, "cases");
        r->told = open_file(r, "lines");
        r->names = open_file(r, "names");
    }
    r->length += k->line.length;
    fwrite(k->line.at, k->line.length, 1, r->lines);
    fwrite(k->told.at, k->told.length, 1, r->told);
    fprintf(r->names, "%s\n", k->name);
}

/* ---- all cases */

/* Whether the program takes the case; its line is then shorter than a file may be. */
static int is_taken(const struct lent_case *k) {
    return k->c.first.length <= LONGEST_BYTES && k->c.second.length <= LONGEST_BYTES - k->c.first.length &&
           (k->c.call != WRITE || k->c.room <= LONGEST_BYTES) && k->rows_len <= LONGEST_TABLE && k->ranges_len <= LONGEST_TABLE;
}

/* A case that is taken, by the peer and into the files. */
static void take_case(struct run *r, struct lent_case *k) {
    int writing = k->c.call == WRITE;
    const struct lent_answer a = {writing,           writing ? k->c.room : k->c.offered, k->c.first.at,  k->c.second.at,
                                  k->c.first.length, k->c.second.length,                 k->rows_len,    k->ranges_len};
    struct lent_result result;
    const char *touched;
    spell_case(k);
    run_lent_answer(&a, &result);
    touched = touched_by(&a, &result);
    if (touched != NULL) {
        give_up(touched);
    }
    text_clear(&k->told);
    spell_answer(&k->told, &a, &result);
    spell_words(&k->told, "\n");
    write_lent(r, k);
    r->done++;
    r->answered += result.number == 0;
    r->refused[result.number < 16 ? result.number : 15]++;
}

static void run_cases(struct run *r, struct lent_case *k) {
    struct luck l = luck_from(r->seed);
    while (r->done < r->cases) {
        snprintf(k->name, sizeof k->name, "case %llu of seed %llu", (unsigned long long)r->done + 1, (unsigned long long)r->seed);
        make_lent(&l, k);
        if (is_taken(k)) {
            take_case(r, k);
        }
    }
}

/* A stored case, if it lends tables. One that the program does not take is told, as nobody else could compare it. */
static int run_stored(const struct stored *s, void *with) {
    struct run *r = with;
    struct lent_case *k = &current_case;
    if (!s->lent) {
        return ENDED_WELL;
    }
    snprintf(k->name, sizeof k->name, "line %zu", s->line);
    k->c = case_of(s);
    k->rows_len = s->rows;
    k->ranges_len = s->ranges;
    if (is_taken(k)) {
        take_case(r, k);
    } else {
        printf("the tables of %s are not compared: it is too long for the program `cases`, which takes at most %u bytes of inputs, "
               "as many of output, and %u numbers of a table\n",
               k->name, LONGEST_BYTES, LONGEST_TABLE);
        r->too_long++;
    }
    return ENDED_WELL;
}

/* ---- words */

static void read_words(struct run *r, int count, char **words) {
    int i;
    for (i = 1; i < count; i += 2) {
        const char *value = i + 1 < count ? words[i + 1] : "";
        if (strcmp(words[i], "--cases") == 0) {
            r->cases = strtoull(value, NULL, 10);
        } else if (strcmp(words[i], "--seed") == 0) {
            r->seed = strtoull(value, NULL, 10);
        } else if (strcmp(words[i], "--into") == 0) {
            r->into = value;
        } else if (strcmp(words[i], "--save") == 0) {
            r->save = value;
        } else if (strcmp(words[i], "--replay") == 0) {
            r->replay = value;
        } else {
            printf("the words are --cases N, --seed N, --into FOLDER, --save FILE and --replay FILE\n");
            exit(2);
        }
    }
}

static void say_counts(const struct run *r) {
    unsigned i;
    printf("%llu cases, %llu without a refusal; by number of refusal:", (unsigned long long)r->done,
           (unsigned long long)r->answered);
    for (i = 1; i < 15; i++) {
        printf(" %u: %llu", i, (unsigned long long)r->refused[i]);
    }
    printf("\n");
}

int main(int count, char **words) {
    struct run *r = &current_run;
    int status = ENDED_WELL;
    r->seed = 1;
    r->cases = 10000;
    r->into = ".";
    r->save = "tables.case";
    read_words(r, count, words);
    signal(SIGSEGV, stopped);
    signal(SIGBUS, stopped);
    begin_lent_answers();
    if (r->replay != NULL) {
        status = stored_each(r->replay, run_stored, r);
    } else {
        printf("seed %llu\n", (unsigned long long)r->seed);
        run_cases(r, &current_case);
        say_counts(r);
    }
    end_files(r);
    if (status == ENDED_WELL) { /* for peer/tables.sh */
        printf("%u files, %llu cases, %llu too long\n", r->files, (unsigned long long)r->done, (unsigned long long)r->too_long);
    }
    return status;
}
