/* Files (files.h). No file is looked at but by opening it, as what a look would tell can be old when it is opened; only file_is
   looks before, to tell apart words that were written by mistake. */
#define _POSIX_C_SOURCE 200809L

#include "files.h"
#include "status.h"

#include <errno.h>
#include <fcntl.h>
#include <stdio.h>
#include <stdlib.h>
#include <string.h>
#include <sys/stat.h>
#include <unistd.h>

static int say_fault(const char *name, const char *what, int status) {
    fprintf(stderr, "player: %s: %s: %s\n", name, what, strerror(errno));
    return status;
}

/* Adds what an open file has, up to one byte more than it may have. */
static void read_on(FILE *f, size_t most, struct bytes *into) {
    enum { PART = 65536 };
    uint8_t *part = memory(PART);
    size_t n = 1;
    while (n > 0 && into->length <= most) {
        size_t left = most + 1 - into->length;
        n = fread(part, 1, left < PART ? left : PART, f);
        bytes_add(into, part, n);
    }
    free(part);
}

static int read_open(FILE *f, const char *name, size_t most, struct bytes *into) {
    into->length = 0;
    read_on(f, most, into);
    int failed = ferror(f), status = ENDED_WELL;
    if (failed) {
        status = say_fault(name, "it cannot be read", CANNOT_OPEN);
    } else if (into->length > most) {
        fprintf(stderr, "player: %s: it is too large: over %zu bytes\n", name, most);
        status = TOO_LARGE;
    }
    fclose(f);
    return status;
}

int file_read_if_there(const char *name, size_t most, struct bytes *into, int *there) {
    FILE *f = fopen(name, "rb");
    *there = f != NULL;
    if (f != NULL) {
        return read_open(f, name, most, into);
    }
    return errno == ENOENT ? ENDED_WELL : say_fault(name, "it cannot be opened", CANNOT_OPEN);
}

int file_read(const char *name, size_t most, struct bytes *into) {
    FILE *f = fopen(name, "rb");
    return f == NULL ? say_fault(name, "it cannot be opened", CANNOT_OPEN) : read_open(f, name, most, into);
}

/* What is told of a file. The headers may be another processor's (tools/headers), whose struct is shorter than what the C library
   writes; device and inode stand first in both. */
union look {
    struct stat told;
    char room[512];
};

int file_is(const char *one, const char *other) {
    union look a, b;
    if (stat(one, &a.told) != 0 || stat(other, &b.told) != 0) {
        return 0;
    }
    return a.told.st_dev == b.told.st_dev && a.told.st_ino == b.told.st_ino;
}

char *name_with(const char *name, const char *ending) {
    size_t n = strlen(name), m = strlen(ending);
    char *whole = memory(n + m + 1);
    memcpy(whole, name, n);
    memcpy(whole + n, ending, m + 1);
    return whole;
}

/* Whether all bytes are on the disk. A file that closes with a fault may lack some. */
static int written_out(FILE *f, const struct bytes *b) {
    int good = b->length == 0 || fwrite(b->at, 1, b->length, f) == b->length;
    good = good && fflush(f) == 0 && fsync(fileno(f)) == 0;
    int kept = errno;
    int closed = fclose(f) == 0;
    if (!good) {
        errno = kept;
    }
    return good && closed;
}

/* Makes a new file. What lies at the name is taken away and never written to: it may be a link to a file that is to stay, or
   another name of the book itself. What comes there in between is not followed either: the file must be new. */
static FILE *open_new(const char *name) {
    if (unlink(name) != 0 && errno != ENOENT) {
        return NULL;
    }
    int number = open(name, O_WRONLY | O_CREAT | O_EXCL, 0666);
    FILE *f = number < 0 ? NULL : fdopen(number, "wb");
    if (number >= 0 && f == NULL) {
        int kept = errno;
        close(number);
        unlink(name);
        errno = kept;
    }
    return f;
}

int file_write_aside(const char *name, const struct bytes *b) {
    char *aside = name_with(name, ".new");
    FILE *f = open_new(aside);
    int status = ENDED_WELL;
    if (f == NULL) {
        status = say_fault(aside, "it cannot be opened to be written", CANNOT_WRITE);
    } else if (!written_out(f, b)) {
        status = say_fault(aside, "it cannot be written", CANNOT_WRITE);
        unlink(aside);
    }
    free(aside);
    return status;
}

/* Asks that the folder of a name, too, comes to the disk. Some file systems refuse that; nothing here rests on it but how
   soon a new name outlives a power cut. */
static void folder_out(const char *name) {
    char *folder = name_with(name, "");
    char *slash = strrchr(folder, '/');
    if (slash == folder) {
        slash++;
    }
    if (slash != NULL) {
        *slash = 0;
    }
    int f = open(slash == NULL ? "." : folder, O_RDONLY);
    if (f >= 0) {
        (void)fsync(f);
        close(f);
    }
    free(folder);
}

int file_put_in_place(const char *name) {
    char *aside = name_with(name, ".new");
    int status = ENDED_WELL;
    if (rename(aside, name) != 0) {
        status = say_fault(name, "the new file cannot take this name", CANNOT_WRITE);
        unlink(aside);
    } else {
        folder_out(name);
    }
    free(aside);
    return status;
}

void file_drop_aside(const char *name) {
    char *aside = name_with(name, ".new");
    unlink(aside);
    free(aside);
}
