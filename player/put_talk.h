/* A talk with a put in it: the bench asks, hands in its changes, and asks on until its book has them as the hub stores them.

   STORE is replaced whole: the new store is written aside, to STORE.new, is on the disk before it takes the name, and takes it in
   one step. So STORE is the old one or the new one, at whatever moment the program is killed; one that is killed before the answer
   came may have been heard. From reading the store to that step STORE.lock is locked, so that no put forgets another. */
#ifndef PUT_TALK_H
#define PUT_TALK_H

#include "options.h"

int put_talk(const struct options *o);

#endif
