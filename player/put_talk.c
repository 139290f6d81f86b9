/* A talk with a put in it (put_talk.h). */
#include "put_talk.h"
#include "../include/hub.h"
#include "files.h"
#include "handed.h"
#include "lock.h"
#include "put.h"
#include "status.h"
#include "talk.h"

#include <stdio.h>
#include <stdlib.h>
#include <string.h>

/* So often is asked and put in all, where the store has another storage index each time. */
#define MOST_PUTS 3u

/* Saves what the hub made of its store, and lists the elements of it. It must read as a store, as the last look before anything is
   written. */
static int save_store(const char *name, const struct bytes *new_store, struct elements *all) {
    uint8_t report[HUB_REPORT_BYTES] = {0};
    if (list_elements(HUB_IN_STORE, new_store->at, new_store->length, all, report) != HUB_DONE) {
        fprintf(stderr, "player: %s: the new store would be none; it is not written\n", name);
        return REFUSED;
    }
    int status = file_write_aside(name, new_store);
    return status == ENDED_WELL ? file_put_in_place(name) : status;
}

/* The hub's side: from the lock to the new store on the disk. The store is read behind the lock: another program may have replaced
   it since it was read for the asks. */
static int put_under_lock(struct course *c, struct put *p, const char *name, struct elements *new_all) {
    int lock = lock_take(name, c->quiet);
    if (lock < 0) {
        return CANNOT_WRITE;
    }
    int status = store_read(name, &c->store, &c->all);
    if (status == ENDED_WELL) {
        status = put_apply(p, &c->store);
    }
    if (status == ENDED_WELL && p->taken) {
        status = save_store(name, &p->new_store, new_all);
    }
    lock_give_back(lock);
    return status;
}

/* The asks behind the put are about the new store, and a new talk. */
static void go_on_with(struct course *c, struct put *p, const struct elements *new_all) {
    struct bytes old = c->store;
    c->store = p->new_store;
    p->new_store = old;
    c->all = *new_all;
    c->before = c->answers;
}

static void say_taken(const struct course *c, const struct put *p, const struct handed *h, size_t new_ones) {
    size_t count = handed_count(h);
    printf("put %llu: taken, elements %zu, replaced %zu, new %zu, answer %zu bytes; store: elements %zu, bytes %zu\n",
           (unsigned long long)p->id, count, count - new_ones, new_ones, p->answer.length, c->all.count, c->store.length);
    fflush(stdout);
}

/* One put, which expects the storage index that the last answer had. */
static int one_put(struct course *c, struct put *p, const struct handed *h, const char *name) {
    struct elements *new_all = memory(sizeof *new_all);
    int status = put_write(p, c->x.report);
    if (status == ENDED_WELL) {
        status = put_under_lock(c, p, name, new_all);
    }
    if (status == ENDED_WELL && p->taken) {
        status = put_read(p);
    }
    if (status == ENDED_WELL && p->taken) {
        size_t new_ones = new_all->count - c->all.count;
        go_on_with(c, p, new_all);
        if (!c->quiet) {
            say_taken(c, p, h, new_ones);
        }
    }
    free(new_all);
    return status;
}

/* Asks, and then puts: the answer tells which storage index the hub has, and brings what the bench lacks. If the store has another
   one when the put comes, it is asked first and put again, a few times: who goes on for ever may be at work against another. */
static int put_until_taken(struct course *c, struct put *p, const struct handed *h, const char *name) {
    int status = ENDED_WELL;
    while (status == ENDED_WELL && !p->taken && p->id < MOST_PUTS) {
        status = talk_ask(c);
        if (status == ENDED_WELL) {
            status = one_put(c, p, h, name);
        }
    }
    if (status == ENDED_WELL && !p->taken) {
        fprintf(stderr, "player: %s: after each of %u asks the store had another storage index; nothing entered\n", name,
                MOST_PUTS);
        status = REFUSED;
    }
    return status;
}

int put_talk(const struct options *o) {
    struct course *c = memory(sizeof *c);
    struct handed h;
    struct put p;
    memset(c, 0, sizeof *c);
    memset(&p, 0, sizeof p);
    int status = handed_read(&h, o->file);
    if (status == ENDED_WELL) {
        status = talk_begin(c, o);
    }
    if (status == ENDED_WELL) {
        p.elements = &h.elements;
        p.guid_low = o->guid_low;
        p.guid_high = o->guid_high;
        p.quiet = o->quiet;
        bytes_lend(&p.request, o->ask_bytes);
        bytes_lend(&p.answer, o->answer_bytes);
        status = put_until_taken(c, &p, &h, o->store);
    }
    if (status == ENDED_WELL) {
        status = talk_to_end(c, UINT64_MAX);
    }
    put_free(&p);
    handed_free(&h);
    talk_free(c);
    free(c);
    return status;
}
