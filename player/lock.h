/* A lock beside a file, which one program at a time has: by it two puts into one store are kept apart. */
#ifndef LOCK_H
#define LOCK_H

/* Takes the lock of NAME: an empty file NAME.lock, which is made if it is not there, and stays. If another program has it, that is
   said, unless quiet, and it is waited for. It gives the number by which the lock is given back, or -1 if there can be none, which
   is said. The system takes a lock back from a program that ends, however it ends. */
int lock_take(const char *name, int quiet);

void lock_give_back(int lock);

#endif
