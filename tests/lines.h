/* Lines of cases for the calls exported to C: the words that a line has, the bytes that a word spells, and what is said of a
   result. */
#ifndef LINES_H
#define LINES_H

#include "lent.h"

#include <stddef.h>
#include <stdint.h>
#include <stdio.h>
#include <stdlib.h>
#include <string.h>

struct bytes {
    uint8_t *at; /* NULL where there are none */
    size_t length;
    int good;
};

static inline int digit(char c) {
    if (c >= '0' && c <= '9') {
        return c - '0';
    }
    return c >= 'a' && c <= 'f' ? c - 'a' + 10 : -1;
}

/* The bytes that a word spells in hex, in a block of exactly their length. */
static inline struct bytes spelled(const char *word) {
    struct bytes b = {NULL, strlen(word) / 2, strlen(word) % 2 == 0};
    if (strcmp(word, "-") == 0) {
        struct bytes none = {NULL, 0, 1};
        return none;
    }
    b.at = room_for(b.length);
    for (size_t i = 0; i < b.length; i++) {
        int high = digit(word[2 * i]), low = digit(word[2 * i + 1]);
        b.good = b.good && high >= 0 && low >= 0;
        b.at[i] = (uint8_t)(high * 16 + low);
    }
    return b;
}

/* Cuts a line into its words, and answers how many there are. There is room for so many; what is behind stays with the last. */
static inline size_t words_of(char *line, char **words, size_t most) {
    size_t n = 0;
    for (char *at = line; at != NULL; n++) {
        char *blank = n + 1 < most ? strchr(at, ' ') : NULL;
        words[n] = at;
        at = NULL;
        if (blank != NULL) {
            *blank = 0;
            at = blank + 1;
        }
    }
    return n;
}

static inline void say_number(uint64_t n) {
    printf(" %llu", (unsigned long long)n);
}

static inline void say_hex(const uint8_t *p, size_t n) {
    for (size_t i = 0; i < n; i++) {
        printf("%02x", p[i]);
    }
}

/* A refusal whose report was written. */
static inline void say_refusal(uint64_t number, const uint8_t *report) {
    printf("no");
    say_number(number);
    for (size_t i = 0; i < 3; i++) {
        say_number(number_in(report + 8 * i));
    }
    printf("\n");
}

/* A result of which the report told nothing. */
static inline void say_number_only(uint64_t number) {
    if (number == 0) {
        printf("ok\n");
    } else {
        printf("no %llu\n", (unsigned long long)number);
    }
}

/* One line without its end, as long as it may be; NULL at the end of the input. */
static inline char *next_line(void) {
    size_t room = 1 << 16, n = 0;
    char *line = room_for(room);
    int c;
    while ((c = getchar()) != EOF && c != '\n') {
        if (n + 1 == room) {
            char *larger = room_for(room * 2);
            memcpy(larger, line, n);
            free(line);
            line = larger;
            room *= 2;
        }
        line[n++] = (char)c;
    }
    line[n] = 0;
    if (c == EOF && n == 0) {
        free(line);
        return NULL;
    }
    return line;
}

#endif
