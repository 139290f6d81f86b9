/* What the tests of refusals share: which numbers were given as they should be, and the faults that a store can have, for each call
   that reads one. */
#ifndef FAULTS_H
#define FAULTS_H

#include "../include/hub.h"
#include "build.h"
#include "damage.h"
#include "limits.h"

#include <stdlib.h>

#define EVERY_NUMBER (0x7FFEu & ~(1u << 13)) /* a bit for each number that is given: 1 to 14, and not 13 */

/* A line for a refusal; of one that is as it should be the number's bit is kept. */
static inline void provoked(unsigned *seen, const char *what, uint64_t number, int good) {
    *seen |= good ? 1u << number : 0;
    beside(what, good);
}

/* A test of one call: what is wrong, the store, which is given up, the number of the refusal and its place. */
typedef void store_test(const char *what, struct text store, uint64_t number, uint64_t place);

/* One element: package 0, its byte 2, element 3, id 5, serial number 22, type 47, where its objects would begin at 48, ends 48 and
   49; 50 bytes. */
static inline void each_store_fault(store_test *refused) {
    struct text store = store_of(7, 1), two = store_of(7, 2), nested = {0}, long_input = {0}, zero = {0};
    struct text longer = put(store, 5, 1 << 6 | 0x20); /* the id 1 in the form of two bytes before its GUID */
    add_byte(&zero, 0);
    add_nested(&nested, 15);
    add_like(&long_input, LONGEST + 1, 0x0C);
    refused("a store of 16,777,217 bytes", long_input, HUB_INPUT_TOO_LONG, LONGEST);
    refused("a store without its last end", cut(store, 49), HUB_RUNS_PAST, 49);
    refused("an element cut within its id", cut(store, 10), HUB_RUNS_PAST, 5);
    refused("an id in no form", put(store, 5, 0x01), HUB_NO_FORM, 5);
    refused("a serial number in no form", put(store, 22, 0x01), HUB_NO_FORM, 22);
    refused("an id in a longer form than it needs", with(longer, 6, zero), HUB_NO_FORM, 5);
    refused("an end where nothing is open", put(store, 0, 0x55), HUB_WRONG_END, 0);
    refused("an element ended by another's end", put(store, 48, 0x09), HUB_WRONG_END, 48);
    refused("an element in place of the package", put(store, 0, 0x0C), HUB_WRONG_LAYOUT, 0);
    refused("a byte behind the package", put_behind(store, 0x00), HUB_WRONG_LAYOUT, 50);
    refused("17 open in a store", with(store, 48, nested), HUB_TOO_DEEP, 48 + 2 * 14);
    refused("257 elements", many_store(257, 0), HUB_TOO_MANY, 3 + 256 * 47);
    refused("an element with a null id", null_id(store, 3), HUB_NULL_NAME, 5);
    refused("an element with a null serial number", null_serial(store, 3), HUB_NULL_NAME, 22);
    refused("an id that was seen before", put(two, 51, 0x0C), HUB_SEEN_BEFORE, 51);
    free(store.at);
    free(two.at);
    free(longer.at);
}

#endif
