/* Prints what the program `cases` has to print (crates/cases/README.md), by the peer: each line of the input is one case, and gives
   one line of output. make expected writes crates/cases/stdout with it. */
#include "lines.h"
#include "spell.h"
#include "taken.h"

#include <stdio.h>
#include <stdlib.h>
#include <string.h>

struct kind {
    const char *name;
    line_of *line;
    enum word_kind words[MOST_WORDS];
};

static const struct kind kinds[] = {
    {"compact", compact_line, {BYTES}},
    {"exguid", exguid_line, {BYTES}},
    {"serial", serial_line, {BYTES}},
    {"header", header_line, {BYTES}},
    {"wcompact", wcompact_line, {ANY_NUMBER, FOR_ITEM}},
    {"wexguid", wexguid_line, {GUID, NUMBER_32, FOR_ITEM}},
    {"wserial", wserial_line, {GUID, ANY_NUMBER, FOR_ITEM}},
    {"wstart", wstart_line, {ANY_NUMBER, ZERO_OR_ONE, ANY_NUMBER, FOR_ITEM}},
    {"wend", wend_line, {ANY_NUMBER, FOR_ITEM}},
    {"store", store_line, {BYTES}},
    {"element", element_line, {BYTES, ANY_NUMBER}},
    {"knowledge", knowledge_line, {BYTES}},
    {"rewritten", rewritten_line, {BYTES, FOR_KNOWLEDGE}},
    {"known", known_line, {BYTES, GUID, ANY_NUMBER}},
    {"chosen", chosen_line, {BYTES, BYTES}},
    {"request", request_line, {BYTES}},
    {"length", length_line, {BYTES, BYTES, ANY_NUMBER, FOR_TABLE, FOR_TABLE}},
    {"write", write_line, {BYTES, BYTES, FOR_ANSWER, FOR_TABLE, FOR_TABLE}},
    {"ask", ask_line, {ANY_NUMBER, ANY_NUMBER, BYTES, BYTES, FOR_REQUEST}},
    {"read", read_line, {BYTES}},
    {"received", received_line, {BYTES, ANY_NUMBER}},
    {"put", put_line, {BYTES, BYTES, GUID, FOR_ANSWER, FOR_ANSWER}},
    {"ask_put", ask_put_line, {ANY_NUMBER, ZERO_OR_ONE, GUID, NUMBER_32, BYTES, FOR_REQUEST}},
    {"read_put", read_put_line, {BYTES}},
    {"keep", keep_line, {BYTES, BYTES, FOR_ANSWER}},
};

/* The kind with this name, or NULL. */
static const struct kind *kind_of(const char *name, const char *end) {
    size_t i, length = (size_t)(end - name);
    for (i = 0; i < sizeof kinds / sizeof *kinds; i++) {
        if (strlen(kinds[i].name) == length && memcmp(kinds[i].name, name, length) == 0) {
            return &kinds[i];
        }
    }
    return NULL;
}

static void one_line(const char *line, const char *end, struct text *told) {
    const char *behind = word_end(line, end);
    const struct kind *kind = kind_of(line, behind);
    struct given g;
    if (kind == NULL || !take_words(behind, end, kind->words, &g)) {
        spell_words(told, "bad");
    } else {
        kind->line(&g, told);
    }
    spell_words(told, "\n");
}

/* The last line may lack its end. */
static void every_line(const char *at, const char *end, struct text *told) {
    while (at < end) {
        const char *line_end = memchr(at, '\n', (size_t)(end - at));
        one_line(at, line_end == NULL ? end : line_end, told);
        at = line_end == NULL ? end : line_end + 1;
    }
}

int main(void) {
    static char input[LONGEST_FILE + 1];
    struct text told = {0};
    size_t n = fread(input, 1, sizeof input, stdin);
    begin_words();
    begin_calls();
    begin_puts();
    begin_keeps();
    if (n == sizeof input) {
        spell_words(&told, "the input is too long\n");
    } else {
        every_line(input, input + n, &told);
    }
    if (ferror(stdin) || fwrite(told.at, 1, told.length, stdout) != told.length || fflush(stdout) != 0) {
        fprintf(stderr, "the lines cannot be read or written\n");
        return 2;
    }
    return 0;
}
