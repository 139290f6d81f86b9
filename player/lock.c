/* A lock beside a file (lock.h). The file itself cannot bear it: it is replaced, and a lock on the old one keeps nobody from the
   new. */
#define _XOPEN_SOURCE 700

#include "lock.h"
#include "files.h"

#include <errno.h>
#include <fcntl.h>
#include <stdio.h>
#include <stdlib.h>
#include <string.h>
#include <unistd.h>

/* Whether the open file is locked for this program, now or after some waiting. */
static int is_locked(int number, const char *name, int quiet) {
    if (lockf(number, F_TLOCK, 0) == 0) {
        return 1;
    }
    if (errno != EACCES && errno != EAGAIN) {
        return 0;
    }
    if (!quiet) {
        printf("another program has %s: it is waited for\n", name);
        fflush(stdout);
    }
    return lockf(number, F_LOCK, 0) == 0;
}

int lock_take(const char *name, int quiet) {
    char *beside = name_with(name, ".lock");
    int number = open(beside, O_RDWR | O_CREAT, 0666);
    if (number < 0 || !is_locked(number, beside, quiet)) {
        fprintf(stderr, "player: %s: it cannot be locked: %s\n", beside, strerror(errno));
        if (number >= 0) {
            close(number);
        }
        number = -1;
    }
    free(beside);
    return number;
}

void lock_give_back(int lock) {
    close(lock);
}
