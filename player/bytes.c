/* Byte buffers from the heap (bytes.h). */
#include "bytes.h"
#include "status.h"

#include <stdio.h>
#include <stdlib.h>
#include <string.h>

void *memory(size_t n) {
    void *p = malloc(n == 0 ? 1 : n);
    if (p == NULL) {
        fprintf(stderr, "player: there is no memory for %zu bytes\n", n);
        exit(NO_MEMORY);
    }
    return p;
}

void bytes_lend(struct bytes *b, size_t room) {
    free(b->at);
    b->at = room == 0 ? NULL : memory(room);
    b->length = 0;
    b->room = room;
}

void bytes_add(struct bytes *b, const void *from, size_t n) {
    if (n > b->room - b->length) {
        size_t room = (b->length + n) * 2;
        uint8_t *larger = memory(room);
        if (b->length > 0) {
            memcpy(larger, b->at, b->length);
        }
        free(b->at);
        b->at = larger;
        b->room = room;
    }
    if (n > 0) {
        memcpy(b->at + b->length, from, n);
    }
    b->length += n;
}

void bytes_free(struct bytes *b) {
    struct bytes none = {NULL, 0, 0};
    free(b->at);
    *b = none;
}

static int digit(char c) {
    if (c >= '0' && c <= '9') {
        return c - '0';
    }
    if (c >= 'A' && c <= 'F') {
        return c - 'A' + 10;
    }
    return c >= 'a' && c <= 'f' ? c - 'a' + 10 : -1;
}

int bytes_spelled(struct bytes *b, const char *text, size_t n) {
    size_t i = 0;
    while (i < n) {
        if (text[i] == ' ' || text[i] == '\n' || text[i] == '\r' || text[i] == '\t') {
            i++;
            continue;
        }
        int high = digit(text[i]), low = i + 1 < n ? digit(text[i + 1]) : -1;
        if (high < 0 || low < 0) {
            return 0;
        }
        uint8_t byte = (uint8_t)(high * 16 + low);
        bytes_add(b, &byte, 1);
        i += 2;
    }
    return 1;
}
