/* A talk under way: what its asks (series.c) and the puts between them (talk_puts.c) share. */
#ifndef PEER_TALK_H
#define PEER_TALK_H

#include "cases.h"
#include "lend.h"
#include "model.h"
#include "sides.h"

#define ROOM 1048576u

struct talk {
    uint64_t number; /* which talk this is */
    struct luck luck;
    unsigned who; /* 0 the library, 1 the peer, 2 both in turn */
    struct maker maker;
    struct model model;
    struct text store, filters, first;
    struct text request; /* the last one, or the last put */
    struct text told;    /* the knowledge to ask with */
    int knows_all;       /* no filters, and no first knowledge: at its end a bench knows all that is stored, and nothing else */
    unsigned answers, asks;
    uint64_t id, limit;
    size_t room;
    enum call call; /* what the last request was handed to: LENGTH, WRITE, or PUT with the next two */
    uint8_t hub[16]; /* the GUID of the hub, which is the same in all puts: under two it could give a number again */
    size_t new_room;
    uint8_t report[88];
};

/* What came of all talks. */
struct tally {
    uint64_t talks, answers, refused, elements, groups, longest;
    uint64_t puts, entered, refused_puts; /* that were taken, what entered by them, and those that were not */
    uint64_t exact;                       /* puts behind which a bench that knew everything got what entered, and nothing else */
};
extern struct tally all;

/* Says what is wrong, saves the last request as a case, and ends the program. */
void fail(const struct talk *t, const char *what);

/* Who makes the next call. */
const struct side *side_of(struct talk *t);

/* A number of the last report. */
uint64_t told(const struct talk *t, size_t at);

/* The knowledge as document 01 has an answer's: by its bytes. */
void spell_answer_knowledge(const struct known *known, struct text *to);

/* ---- puts between */

void begin_puts(void);

/* A put, which is taken or refused as the model says: whether it was taken. The store is then the new one, and what is wanted is
   what a bench lacks that knows what it was told before. */
int put_between(struct talk *t);

#endif
