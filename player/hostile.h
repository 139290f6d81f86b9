/* Requests that were damaged on their way: what the hub's side says of them, and whether it is seen to break a promise. */
#ifndef HOSTILE_H
#define HOSTILE_H

#include "options.h"

int hostile(const struct options *o);

#endif
