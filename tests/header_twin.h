/* What header_twin.c has for header.c, in C and in C++. */
#ifndef HEADER_TWIN_H
#define HEADER_TWIN_H

#include "../include/hub.h"

#ifdef __cplusplus
extern "C" {
#endif
const char *twin_text(uint64_t number);
uint64_t twin_number(const uint8_t *report);
uint64_t twin_call(void);
uint64_t twin_length(void);
uint64_t twin_put(void);
uint64_t twin_keep(void);
#ifdef __cplusplus
}
#endif

#endif
