/* The objects of a file with their places, for a person who looks into a fault. */
#ifndef DUMP_H
#define DUMP_H

int dump(const char *name);

#endif
