/* The few items that the program reads by itself: headers, compact integers, and the names that an element bears. It reads
   them to show and to compare bytes that the library has taken; what is right and wrong is the library's to say. So padded
   numbers are read with a mark, as a store and an answer may have them. */
#ifndef OBJECTS_H
#define OBJECTS_H

#include <stddef.h>
#include <stdint.h>

/* Types by number, of those that are asked for by name. */
enum { ELEMENT = 0x01, RANGE = 0x0F, KNOWLEDGE = 0x10, PACKAGE = 0x15, PUT_CHANGES = 0x5A };

/* A compact integer. */
struct number {
    uint64_t value;
    size_t size; /* how many bytes it has */
    int padded;  /* whether a shorter form has the value too */
};

struct header {
    int end, compound;
    uint64_t type, length; /* the true length of the object's own data; 0 of an end */
    size_t size;           /* how many bytes the header has, the compact integer behind it too */
    int padded;            /* whether that compact integer is padded */
};

/* Each gives 0, or HUB_RUNS_PAST if bytes of it are missing. */
uint64_t read_header(const uint8_t *at, size_t left, struct header *h);
uint64_t compact_number(const uint8_t *at, size_t left, struct number *x);

/* How many bytes an extended GUID has by its first one; 0 if that is in no form. */
size_t exguid_size(uint8_t first);

/* An extended GUID that is not null: its number, and where the sixteen bytes of its GUID stand. */
struct exguid {
    uint64_t number;
    const uint8_t *guid;
};

struct exguid read_exguid(const uint8_t *at);

/* A serial number that is not null: byte 128, GUID, 8-byte number. */
#define SERIAL_SIZE 25u

/* Where an element stands, where its id stands and how long that is. The serial number follows the id. Each id and each serial
   number has one form alone, so equal ones are equal bytes. */
struct element {
    size_t place, length, id, id_length;
};

/* Where the SERIAL_SIZE bytes of its serial number stand. */
const uint8_t *serial_of(const uint8_t *bytes, const struct element *e);

#define MOST_ELEMENTS 256u

/* The elements of a store or an answer, in order. */
struct elements {
    struct element row[MOST_ELEMENTS];
    size_t count;
};

/* Asks the library for one element after the other, of a store or an answer (HUB_IN_STORE, HUB_IN_ANSWER). It gives 0, or the
   number of the refusal, of which the report then tells. */
uint64_t list_elements(uint64_t kind, const uint8_t *bytes, size_t length, struct elements *all, uint8_t *report);

/* How many groups they are: those that share a serial number are one, which the hub sends whole. */
size_t count_groups(const uint8_t *bytes, const struct elements *all);

/* How many objects of a type begin in bytes that are well-formed. */
size_t count_objects(const uint8_t *bytes, size_t length, uint64_t type);

#endif
