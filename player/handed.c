/* What a put hands in (handed.h). */
#define _POSIX_C_SOURCE 200809L

#include "handed.h"
#include "../include/hub.h"
#include "files.h"
#include "objects.h"
#include "report.h"
#include "status.h"

#include <dirent.h>
#include <errno.h>
#include <stdio.h>
#include <stdlib.h>
#include <string.h>

/* ---- files */

/* How long the package's end is that stands last, in either form; 0 if there is none behind the front. */
static size_t end_size(const struct bytes *file, size_t front) {
    struct header end;
    for (size_t size = 1; size <= 2 && front + size <= file->length; size++) {
        if (read_header(file->at + file->length - size, size, &end) == 0 && end.end && end.type == PACKAGE && end.size == size) {
            return size;
        }
    }
    return 0;
}

/* Where the elements of a file stand: from the front on, so many bytes. Whether there is an end if there is a package's start; what
   stands between them is the library's to judge. */
static int find_elements(const struct bytes *file, size_t *front, size_t *length) {
    struct header start;
    size_t end;
    *front = 0;
    *length = file->length;
    if (read_header(file->at, file->length, &start) != 0 || start.end || start.type != PACKAGE) {
        return 1;
    }
    *front = start.size + 1; /* the reserved byte is the start's own data, and any in a store */
    end = end_size(file, *front);
    if (start.length != 1 || end == 0) {
        return 0;
    }
    *length = file->length - *front - end;
    return 1;
}

static void add_part(struct handed *h, const char *file, size_t front) {
    struct part *more = memory((h->count + 1) * sizeof *more);
    if (h->count > 0) {
        memcpy(more, h->parts, h->count * sizeof *more);
    }
    more[h->count].file = name_with(file, "");
    more[h->count].front = front;
    more[h->count].place = h->elements.length;
    free(h->parts);
    h->parts = more;
    h->count++;
}

static int read_file(struct handed *h, const char *name) {
    struct bytes file = {NULL, 0, 0};
    size_t front = 0, length = 0;
    int status = file_read(name, HUB_LONGEST_INPUT, &file);
    if (status == ENDED_WELL && !find_elements(&file, &front, &length)) {
        fprintf(stderr, "player: %s: it begins as a package and is none\n", name);
        status = WRONG_CONTENT;
    }
    if (status == ENDED_WELL && length > HUB_LONGEST_INPUT - h->elements.length) {
        fprintf(stderr, "player: %s: with what stands before it, it is too large: over %u bytes\n", name, HUB_LONGEST_INPUT);
        status = TOO_LARGE;
    }
    if (status == ENDED_WELL) {
        add_part(h, name, front);
        if (length > 0) {
            bytes_add(&h->elements, file.at + front, length);
        }
    }
    bytes_free(&file);
    return status;
}

/* ---- a folder */

static int is_shown(const struct dirent *entry) {
    return entry->d_name[0] != '.';
}

static int read_in_folder(struct handed *h, const char *folder, const char *name) {
    char *front = name_with(folder, "/"), *whole = name_with(front, name);
    int status = read_file(h, whole);
    free(front);
    free(whole);
    return status;
}

/* Its files in the order of their names, which is that of their bytes: no other is asked for. */
static int read_folder(struct handed *h, const char *name, struct dirent **entries, int count) {
    int status = ENDED_WELL;
    for (int i = 0; i < count; i++) {
        if (status == ENDED_WELL) {
            status = read_in_folder(h, name, entries[i]->d_name);
        }
        free(entries[i]);
    }
    free(entries);
    return status;
}

/* ---- the library's word */

/* The part in which a place falls: the last that begins there or before. */
static const struct part *part_at(const struct handed *h, size_t place) {
    size_t i = h->count;
    while (i > 1 && h->parts[i - 1].place > place) {
        i--;
    }
    return &h->parts[i - 1];
}

/* Elements are judged by a put with them, which is not looked at. */
static int judge(const struct handed *h) {
    uint8_t report[HUB_REPORT_BYTES] = {0};
    uint64_t number = hub_ask_put(1, 0, 0, 0, 0, h->elements.at, h->elements.length, NULL, 0, report, sizeof report);
    size_t place = told_size(report, HUB_AT_PLACE);
    const struct part *part = part_at(h, place);
    if (number == HUB_OUTPUT_TOO_SHORT) {
        return ENDED_WELL;
    }
    if (number == HUB_INPUT_TOO_LONG) {
        fprintf(stderr, "player: %s: it is too large: a put with it would have over %u bytes\n", part->file, HUB_LONGEST_INPUT);
        return TOO_LARGE;
    }
    fprintf(stderr, "player: %s: it cannot be handed in: refused %llu at place %zu (%s)\n", part->file,
            (unsigned long long)number, place - part->place + part->front, hub_refusal_text(number));
    return WRONG_CONTENT;
}

int handed_read(struct handed *h, const char *name) {
    struct dirent **entries = NULL;
    memset(h, 0, sizeof *h);
    int count = scandir(name, &entries, is_shown, alphasort);
    /* What is no folder, or cannot be looked into as one, is taken for a file: then that is said which opening it tells. */
    int status = count < 0 ? read_file(h, name) : read_folder(h, name, entries, count);
    return status == ENDED_WELL && h->elements.length > 0 ? judge(h) : status;
}

size_t handed_count(const struct handed *h) {
    size_t count = 0, depth = 0, place = 0;
    struct header next;
    while (place < h->elements.length && read_header(h->elements.at + place, h->elements.length - place, &next) == 0) {
        count += depth == 0;
        depth = next.end ? depth - 1 : depth + (size_t)next.compound;
        place += next.size + (size_t)next.length;
    }
    return count;
}

void handed_free(struct handed *h) {
    for (size_t i = 0; i < h->count; i++) {
        free(h->parts[i].file);
    }
    free(h->parts);
    bytes_free(&h->elements);
}
