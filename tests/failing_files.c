/* A disk that fails, for tests of how the player saves a book or a store: it takes the place of player/files.c, which it holds, and
   hands the program's calls that change the disk to its own. Each such call is a step, counted from 1. What it does is named by
   variables:
   - STEPS: a file, to which a line is added for each step;
   - FAIL_AT: the number of the step that fails, with nothing done (a file is closed all the same);
   - CUT_AT: the number of the step before which everything ends, as when the power goes: the status is 99, and of a file that was
     not told to come to the disk (fsync) no byte is there. */
#define _POSIX_C_SOURCE 200809L

#include <errno.h>
#include <fcntl.h>
#include <stdarg.h>
#include <stdio.h>
#include <stdlib.h>
#include <string.h>
#include <sys/stat.h>
#include <unistd.h>

/* The files that were made, by the names that they have now. */
enum { MOST_MADE = 64 };
static struct made {
    char name[4096];
    int number, on_disk;
} made[MOST_MADE];
static size_t made_count;

static struct made *made_as(int number) {
    for (size_t i = made_count; i > 0; i--) {
        if (made[i - 1].number == number) {
            return &made[i - 1];
        }
    }
    return NULL;
}

static void cut_here(void) {
    for (size_t i = 0; i < made_count; i++) {
        FILE *f = made[i].on_disk || access(made[i].name, F_OK) != 0 ? NULL : fopen(made[i].name, "wb");
        if (f != NULL) {
            fclose(f);
        }
    }
    fprintf(stderr, "the power goes\n");
    _exit(99);
}

static int is_now(const char *variable, int step) {
    const char *word = getenv(variable);
    return word != NULL && atoi(word) == step;
}

static const char *last_part(const char *name) {
    const char *slash = strrchr(name, '/');
    return slash == NULL ? name : slash + 1;
}

/* One step: whether it fails. */
static int step(const char *what, const char *name) {
    static int count = 0;
    const char *steps = getenv("STEPS");
    FILE *f = steps == NULL ? NULL : fopen(steps, "a");
    count++;
    if (f != NULL) {
        fprintf(f, "%d %s %s\n", count, what, last_part(name));
        fclose(f);
    }
    if (is_now("CUT_AT", count)) {
        cut_here();
    }
    errno = EIO;
    return is_now("FAIL_AT", count);
}

/* ---- the calls */

static int step_unlink(const char *name) {
    return step("unlink", name) ? -1 : unlink(name);
}

/* A file that is made, or a folder that is opened to be told to come to the disk, which is no step. */
static int step_open(const char *name, int flags, ...) {
    va_list more;
    if ((flags & O_CREAT) == 0) {
        return open(name, flags);
    }
    va_start(more, flags);
    unsigned mode = va_arg(more, unsigned);
    va_end(more);
    if (step("make", name) || made_count == MOST_MADE || strlen(name) >= sizeof made[0].name) {
        return -1;
    }
    struct made *m = &made[made_count++];
    strcpy(m->name, name);
    m->on_disk = 0;
    m->number = open(name, flags, mode);
    return m->number;
}

static size_t step_fwrite(const void *from, size_t size, size_t n, FILE *f) {
    return step("write", made_as(fileno(f))->name) ? 0 : fwrite(from, size, n, f);
}

static int step_fflush(FILE *f) {
    return step("flush", made_as(fileno(f))->name) ? EOF : fflush(f);
}

static int step_fsync(int number) {
    struct made *m = made_as(number);
    if (step("to disk", m == NULL ? "folder" : m->name) || fsync(number) != 0) {
        return -1;
    }
    if (m != NULL) {
        m->on_disk = 1;
    }
    return 0;
}

/* Of a file that is read it is no step. */
static int step_fclose(FILE *f) {
    struct made *m = made_as(fileno(f));
    int failed = m != NULL && step("close", m->name);
    if (m != NULL) {
        m->number = -1; /* another file may get this number */
    }
    int closed = fclose(f);
    errno = failed ? EIO : errno;
    return failed ? EOF : closed;
}

static int step_rename(const char *from, const char *to) {
    if (step("rename", to) || rename(from, to) != 0) {
        return -1;
    }
    for (size_t i = 0; i < made_count; i++) {
        if (strcmp(made[i].name, from) == 0) {
            strcpy(made[i].name, to);
        }
    }
    return 0;
}

#define unlink step_unlink
#define open step_open
#define fwrite step_fwrite
#define fflush step_fflush
#define fsync step_fsync
#define fclose step_fclose
#define rename step_rename
#include "../player/files.c"
