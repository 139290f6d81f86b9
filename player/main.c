/* The player: a program that plays a test bench and its hub. It holds a whole talk of the two by the calls of include/hub.h, both
   sides in one process with files for store and book. It shows how a daemon uses the calls, and what they do. Its exit statuses
   are in status.h. */
#include "check.h"
#include "dump.h"
#include "hostile.h"
#include "options.h"
#include "put_talk.h"
#include "replay.h"
#include "status.h"
#include "talk.h"

#include <stdio.h>

static int run(const struct options *o) {
    switch (o->mode) {
    case PUT:
        return put_talk(o);
    case HOSTILE:
        return hostile(o);
    case CHECK:
        return check(o);
    case DUMP:
        return dump(o->file);
    case REPLAY:
        return replay(o->file);
    case HELP:
        say_help();
        return ENDED_WELL;
    default:
        return talk(o);
    }
}

int main(int count, char **words) {
    struct options o;
    int status = options_read(&o, count, words);
    if (status == ENDED_WELL) {
        status = run(&o);
    }
    if ((fflush(stdout) != 0 || ferror(stdout)) && status == ENDED_WELL) {
        fprintf(stderr, "player: the output cannot be written\n");
        status = CANNOT_WRITE;
    }
    return status;
}
