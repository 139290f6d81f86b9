/* A program that has the lock of a store, for tests of the player: as another put that is under way, it keeps puts waiting until it
   is killed. It says so, and ends by itself in a while if nobody ends it. */
#define _POSIX_C_SOURCE 200809L

#include "../player/lock.h"

#include <stdio.h>
#include <unistd.h>

int main(int count, char **words) {
    if (count != 2 || lock_take(words[1], 0) < 0) {
        return 1;
    }
    puts("the lock is held");
    fflush(stdout);
    alarm(120);
    pause();
    return 0;
}
