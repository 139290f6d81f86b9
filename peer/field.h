/* Cases from the field: the calls of a file of stored cases (player/stored.h), made again by the library and by the peer. */
#ifndef PEER_FIELD_H
#define PEER_FIELD_H

/* Prints of each case the library's account (player/replay.h), and whether both agree. 1 if there is a difference; else the status
   of player/status.h, 0 if all is well. The tables that a case may lend are not compared here, as the calls have their own: if
   cases lend some, how many do is written to the file `lent`, which may be NULL. */
int field_cases(const char *name, const char *lent);

/* Says which case is under way, if one is: for a call that touches a protected page, which is a difference too. */
void say_field_stopped(void);

#endif
