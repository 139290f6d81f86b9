/* What the calls tell, beside what include/hub.h has for it: sizes, hex, and the message for a file that is refused. */
#ifndef REPORT_H
#define REPORT_H

#include <stddef.h>
#include <stdint.h>

/* A number of a report (enum hub_report), to be printed. */
unsigned long long told(const uint8_t *report, size_t place);

/* The same as a length or a place in a buffer, which always fits. */
size_t told_size(const uint8_t *report, size_t place);

/* Writes in hex, sixteen bytes of a GUID for example. */
void say_hex(const uint8_t *at, size_t n);

/* Says on the error output that a file is refused: the number, the place and what they mean. */
void say_refused(const char *file, const char *what, uint64_t number, const uint8_t *report);

#endif
