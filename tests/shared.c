/* The shared library that is made from the archive, opened while the program runs: the word is its path. Each of the nine calls is
   there, and gives with nothing handed in what it gives from the archive. The exit status is 1 if a line is not ok. */
#include "../include/hub.h"
#include "limits.h"

#include <dlfcn.h>
#include <stdio.h>
#include <stdlib.h>
#include <string.h>

static void *library;

/* A function by its name; C99 has no cast from a pointer to an object to one to a function. */
static void find(const char *name, void *function) {
    void *p = dlsym(library, name);
    if (p == NULL) {
        printf("there is no %s\n", name);
        exit(1);
    }
    memcpy(function, &p, sizeof p);
}

int main(int count, char **words) {
    uint64_t (*length)(const uint8_t *, size_t, const uint8_t *, size_t, uint64_t, uint8_t *, size_t);
    uint64_t (*write)(const uint8_t *, size_t, const uint8_t *, size_t, uint8_t *, size_t, uint8_t *, size_t);
    uint64_t (*ask)(uint64_t, uint64_t, const uint8_t *, size_t, const uint8_t *, size_t, uint8_t *, size_t, uint8_t *, size_t);
    uint64_t (*read)(const uint8_t *, size_t, uint8_t *, size_t);
    uint64_t (*element)(uint64_t, const uint8_t *, size_t, uint64_t, uint8_t *, size_t);
    uint64_t (*put)(const uint8_t *, size_t, const uint8_t *, size_t, uint64_t, uint64_t, uint8_t *, size_t, uint8_t *, size_t,
                    uint8_t *, size_t);
    uint64_t (*ask_put)(uint64_t, uint64_t, uint64_t, uint64_t, uint64_t, const uint8_t *, size_t, uint8_t *, size_t, uint8_t *,
                        size_t);
    uint64_t (*read_put)(const uint8_t *, size_t, uint8_t *, size_t);
    uint64_t (*keep)(const uint8_t *, size_t, const uint8_t *, size_t, uint8_t *, size_t, uint8_t *, size_t);
    library = count > 1 ? dlopen(words[1], RTLD_NOW) : NULL;
    if (library == NULL) {
        printf("the shared library cannot be opened: %s\n", dlerror());
        return 1;
    }
    find("hub_length", &length);
    find("hub_write", &write);
    find("hub_ask", &ask);
    find("hub_read", &read);
    find("hub_element", &element);
    find("hub_put", &put);
    find("hub_ask_put", &ask_put);
    find("hub_read_put", &read_put);
    find("hub_keep", &keep);
    beside("hub_length", length(NULL, 0, NULL, 0, 0, NULL, 0) == HUB_RUNS_PAST);
    beside("hub_write", write(NULL, 0, NULL, 0, NULL, 0, NULL, 0) == HUB_RUNS_PAST);
    beside("hub_ask", ask(1, 0, NULL, 0, NULL, 0, NULL, 0, NULL, 0) == HUB_OUTPUT_TOO_SHORT);
    beside("hub_read", read(NULL, 0, NULL, 0) == HUB_RUNS_PAST);
    beside("hub_element", element(HUB_IN_STORE, NULL, 0, 0, NULL, 0) == HUB_RUNS_PAST);
    beside("hub_put", put(NULL, 0, NULL, 0, 0, 0, NULL, 0, NULL, 0, NULL, 0) == HUB_RUNS_PAST);
    beside("hub_ask_put", ask_put(1, 0, 0, 0, 0, NULL, 0, NULL, 0, NULL, 0) == HUB_OUTPUT_TOO_SHORT);
    beside("hub_read_put", read_put(NULL, 0, NULL, 0) == HUB_RUNS_PAST);
    beside("hub_keep", keep(NULL, 0, NULL, 0, NULL, 0, NULL, 0) == HUB_RUNS_PAST);
    return ended();
}
