/* Files of stored cases (stored.h). What a case has is taken as it is, too long or damaged too. */
#include "stored.h"
#include "files.h"
#include "options.h"
#include "status.h"

#include <stdio.h>
#include <stdlib.h>
#include <string.h>

#define MOST_WORDS 8u /* one more than a case has */

/* A line, cut into its words. */
struct line {
    const char *file;
    size_t number, count;
    char *words[MOST_WORDS];
};

/* The forms of a line that has its bytes in hex, each under its first word. */
static const char *const forms[] = {
    "length STOREHEX REQUESTHEX OFFERED [STORETABLELEN KNOWTABLELEN]",
    "write STOREHEX REQUESTHEX OUTLEN [STORETABLELEN KNOWTABLELEN]",
    "ask ID LIMIT FILTERHEX KNOWLEDGEHEX OUTLEN",
    "read ANSWERHEX",
    "received ANSWERHEX POSITION",
    "element STOREHEX POSITION",
    "put STOREHEX REQUESTHEX HUBGUIDHEX NEWSTORELEN OUTLEN",
    "ask_put ID NAMED GUIDHEX NUMBER ELEMENTSHEX OUTLEN",
    "read_put ANSWERHEX",
    "keep BOOKHEX ANSWERHEX NEWBOOKLEN",
};

static const char *form_of(const char *word) {
    size_t n = strlen(word);
    for (size_t i = 0; i < sizeof forms / sizeof forms[0]; i++) {
        if (strncmp(word, forms[i], n) == 0 && forms[i][n] == ' ') {
            return forms[i];
        }
    }
    return NULL;
}

/* Cuts a line into its words at the blanks, as far as there is room for them. */
static void cut_words(char *text, struct line *l) {
    static const char blanks[] = " \t\r";
    text += strspn(text, blanks);
    while (*text != 0 && l->count < MOST_WORDS) {
        l->words[l->count++] = text;
        text += strcspn(text, blanks);
        if (*text != 0) {
            *text++ = 0;
            text += strspn(text, blanks);
        }
    }
}

static int bad_line(const struct line *l, const char *what) {
    fprintf(stderr, "player: %s, line %zu: %s\n", l->file, l->number, what);
    return WRONG_CONTENT;
}

static int other_form(const struct line *l, const char *form) {
    fprintf(stderr, "player: %s, line %zu: it is no case of the form `%s`\n", l->file, l->number, form);
    return WRONG_CONTENT;
}

static int is_hex(struct bytes *b, const char *word) {
    return strcmp(word, "-") == 0 || bytes_spelled(b, word, strlen(word));
}

/* A length, at most so great. */
static int is_length(size_t *length, const char *word, size_t most) {
    uint64_t value = 0;
    int good = decimal(word, most, &value);
    *length = (size_t)value;
    return good;
}

static int is_room(struct stored *c, const char *word) {
    return is_length(&c->room, word, STORED_LONGEST);
}

/* The room for a new store. */
static int is_new_room(struct stored *c, const char *word) {
    return is_length(&c->new_room, word, STORED_LONGEST);
}

/* A GUID, its sixteen bytes as they are sent. */
static int is_guid(struct stored *c, const char *word) {
    struct bytes b = {NULL, 0, 0};
    int good = is_hex(&b, word) && b.length == 16;
    for (size_t i = 0; good && i < 2; i++) {
        c->guid[i] = hub_report_number(b.at, 8 * i);
    }
    bytes_free(&b);
    return good;
}

/* The lengths of both tables. Nothing is lent here by them, so they may be as great as a length can be. */
static int are_tables(struct stored *c, const char *rows, const char *ranges) {
    c->lent = 1;
    return is_length(&c->rows, rows, SIZE_MAX) && is_length(&c->ranges, ranges, SIZE_MAX);
}

/* One of the forms of the calls for puts: whether the line is as it says. */
static int spelled_put(const struct line *l, struct stored *c) {
    char *const *w = l->words;
    if (strcmp(w[0], "put") == 0) {
        c->call = CALL_PUT;
        return l->count == 6 && is_hex(&c->first, w[1]) && is_hex(&c->second, w[2]) && is_guid(c, w[3]) && is_new_room(c, w[4]) &&
               is_room(c, w[5]);
    }
    if (strcmp(w[0], "ask_put") == 0) {
        c->call = CALL_ASK_PUT;
        return l->count == 7 && decimal(w[1], UINT64_MAX, &c->id) && decimal(w[2], UINT64_MAX, &c->named) && c->named <= 1 &&
               is_guid(c, w[3]) && decimal(w[4], UINT64_MAX, &c->number) && is_hex(&c->first, w[5]) && is_room(c, w[6]);
    }
    c->call = CALL_READ_PUT;
    return l->count == 2 && is_hex(&c->first, w[1]);
}

static int is_offered(struct stored *c, const char *word) {
    return decimal(word, UINT64_MAX, &c->offered);
}

/* One of the two forms of an answer. */
static int spelled_answer(const struct line *l, struct stored *c) {
    char *const *w = l->words;
    c->call = strcmp(w[0], "length") == 0 ? CALL_LENGTH : CALL_WRITE;
    return (l->count == 4 || (l->count == 6 && are_tables(c, w[4], w[5]))) && is_hex(&c->first, w[1]) && is_hex(&c->second, w[2]) &&
           (c->call == CALL_LENGTH ? is_offered(c, w[3]) : is_room(c, w[3]));
}

/* One of the forms: whether the line is as it says. */
static int spelled_case(const struct line *l, struct stored *c) {
    char *const *w = l->words;
    if (strcmp(w[0], "length") == 0 || strcmp(w[0], "write") == 0) {
        return spelled_answer(l, c);
    }
    if (strcmp(w[0], "ask") == 0) {
        c->call = CALL_ASK;
        return l->count == 6 && decimal(w[1], UINT64_MAX, &c->id) && decimal(w[2], UINT64_MAX, &c->limit) &&
               is_hex(&c->first, w[3]) && is_hex(&c->second, w[4]) && is_room(c, w[5]);
    }
    if (strcmp(w[0], "read") == 0) {
        c->call = CALL_READ;
        return l->count == 2 && is_hex(&c->first, w[1]);
    }
    if (strstr(w[0], "put") != NULL) {
        return spelled_put(l, c);
    }
    if (strcmp(w[0], "keep") == 0) {
        c->call = CALL_KEEP;
        return l->count == 4 && is_hex(&c->first, w[1]) && is_hex(&c->second, w[2]) && is_room(c, w[3]);
    }
    c->call = CALL_ELEMENT;
    c->kind = strcmp(w[0], "element") == 0 ? HUB_IN_STORE : HUB_IN_ANSWER;
    return l->count == 3 && is_hex(&c->first, w[1]) && decimal(w[2], UINT64_MAX, &c->position);
}

/* The file that a word of a case names, in the folder of the file of cases. */
static int read_beside(const char *cases, const char *word, struct bytes *into) {
    const char *slash = strrchr(cases, '/');
    size_t n = word[0] == '/' || slash == NULL ? 0 : (size_t)(slash - cases) + 1;
    char *name = memory(n + strlen(word) + 1);
    memcpy(name, cases, n);
    memcpy(name + n, word, strlen(word) + 1);
    int status = file_read(name, STORED_LONGEST, into);
    free(name);
    return status;
}

/* What stands in a word behind its name, as in `out=OUTLEN`; NULL if it has another name. */
static const char *behind(const char *word, const char *name) {
    size_t n = strlen(name);
    return strncmp(word, name, n) == 0 && word[n] == '=' ? word + n + 1 : NULL;
}

/* `store=FILE request=FILE offered=OFFERED`, or `out=OUTLEN` as the last word. */
static int names_answer(const struct line *l, struct stored *c) {
    char *const *w = l->words;
    if (l->count != 3 || behind(w[0], "store") == NULL || behind(w[1], "request") == NULL) {
        return 0;
    }
    const char *offered = behind(w[2], "offered"), *room = behind(w[2], "out");
    c->call = offered != NULL ? CALL_LENGTH : CALL_WRITE;
    return (offered != NULL && is_offered(c, offered)) || (room != NULL && is_room(c, room));
}

/* `store=FILE put=FILE guid=HUBGUIDHEX new=NEWSTORELEN out=OUTLEN`. */
static int names_put(const struct line *l, struct stored *c) {
    char *const *w = l->words;
    c->call = CALL_PUT;
    return l->count == 5 && behind(w[0], "store") != NULL && behind(w[1], "put") != NULL && behind(w[2], "guid") != NULL &&
           behind(w[3], "new") != NULL && behind(w[4], "out") != NULL && is_guid(c, behind(w[2], "guid")) &&
           is_new_room(c, behind(w[3], "new")) && is_room(c, behind(w[4], "out"));
}

/* `book=FILE answer=FILE new=NEWBOOKLEN`. */
static int names_keep(const struct line *l, struct stored *c) {
    char *const *w = l->words;
    c->call = CALL_KEEP;
    return l->count == 3 && behind(w[0], "book") != NULL && behind(w[1], "answer") != NULL && behind(w[2], "new") != NULL &&
           is_room(c, behind(w[2], "new"));
}

/* One of these, with both files read. */
static int named_case(const struct line *l, struct stored *c) {
    if (!names_answer(l, c) && !names_put(l, c) && !names_keep(l, c)) {
        return bad_line(l, "it is no case (player --help tells the forms)");
    }
    int status = read_beside(l->file, strchr(l->words[0], '=') + 1, &c->first);
    return status == ENDED_WELL ? read_beside(l->file, strchr(l->words[1], '=') + 1, &c->second) : status;
}

static int read_case(const struct line *l, struct stored *c) {
    const char *form = form_of(l->words[0]);
    if (form == NULL) {
        return named_case(l, c);
    }
    return spelled_case(l, c) ? ENDED_WELL : other_form(l, form);
}

/* What is done with the cases, and how many there were. */
struct course {
    int (*run)(const struct stored *c, void *with);
    void *with;
    size_t cases;
};

/* One line; empty ones and those that begin with # are passed over. */
static int one_line(const struct line *l, struct course *course) {
    struct stored c = {l->number, CALL_WRITE, 0, 0, 0, 0, 0, 0, {0, 0}, {NULL, 0, 0}, {NULL, 0, 0}, 0, 0, 0, 0, 0, 0};
    if (l->count == 0 || l->words[0][0] == '#') {
        return ENDED_WELL;
    }
    int status = read_case(l, &c);
    if (status == ENDED_WELL) {
        course->cases++;
        status = course->run(&c, course->with);
    }
    bytes_free(&c.first);
    bytes_free(&c.second);
    return status;
}

/* The lines of a file that was read. */
static int all_lines(const char *name, const struct bytes *text, struct course *course) {
    size_t number = 0, place = 0;
    int status = ENDED_WELL;
    while (status == ENDED_WELL && place < text->length) {
        const uint8_t *end = memchr(text->at + place, '\n', text->length - place);
        size_t n = end == NULL ? text->length - place : (size_t)(end - text->at) - place;
        struct line l = {name, ++number, 0, {NULL}};
        char *line = memory(n + 1);
        memcpy(line, text->at + place, n);
        line[n] = 0;
        place += n + 1;
        if (memchr(line, 0, n) != NULL) { /* it would end the line as a string, and what stands behind it would not be seen */
            status = bad_line(&l, "it has a NUL byte");
        } else {
            cut_words(line, &l);
            status = one_line(&l, course);
        }
        free(line);
    }
    return status;
}

int stored_each(const char *name, int (*run)(const struct stored *c, void *with), void *with) {
    struct course course = {run, with, 0};
    struct bytes text = {NULL, 0, 0};
    int status = file_read(name, STORED_LONGEST, &text);
    if (status == ENDED_WELL) {
        status = all_lines(name, &text, &course);
    }
    if (status == ENDED_WELL && course.cases == 0) {
        fprintf(stderr, "player: %s: there is no case in it\n", name);
        status = WRONG_CONTENT;
    }
    bytes_free(&text);
    return status;
}
