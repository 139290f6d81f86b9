/* Stored cases (stored.h) run through the library, with an account of each: to look into a fault from the field. */
#ifndef REPLAY_H
#define REPLAY_H

#include "stored.h"

/* Makes the call of one case and prints what it gives. ENDED_WELL, also after a refusal, or PROMISE_BROKEN, which is said. */
int replay_case(const struct stored *c);

/* All cases of a file. */
int replay(const char *name);

#endif
