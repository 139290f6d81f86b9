/* What the files that make things share. */
#ifndef PEER_MAKE_INNER_H
#define PEER_MAKE_INNER_H

#include "make.h"

/* A decision: whether it is the one that is spoiled. */
int spoils(struct maker *m);

/* Items, each of which is a decision. */
void make_compact(struct maker *m, struct text *t, uint64_t x);
void make_extended(struct maker *m, struct text *t, const struct made_name *id);
void wrong_extended(struct maker *m, struct text *t, const struct made_name *id);
void make_serial(struct maker *m, struct text *t, const struct made_name *serial);
void make_start(struct maker *m, struct text *t, unsigned type, unsigned compound, uint64_t length);
void make_end(struct maker *m, struct text *t, unsigned type);

/* A serial number, often beside one of the store. An id of the store, or any. Whether a name is among these. */
void some_serial(struct maker *m, struct made_name *serial);
void some_id(struct maker *m, struct made_name *id, int stored);
int used(const struct made_name *names, unsigned count, const struct made_name *name);

/* The type of an element, most often one of 0 to 11; and those of so many elements of a store in turn. */
uint64_t element_type(struct maker *m);
void begin_types(struct maker *m, unsigned elements);
uint64_t next_type(struct maker *m);

/* The serial numbers of so many elements of a store in turn, for the element that is the next. */
void begin_serials(struct maker *m, unsigned elements);
void next_serial(struct maker *m, struct made_name *serial);

/* One of a few GUIDs, some of which differ in one byte, at either end; or any. */
void some_guid(struct luck *l, uint8_t *guid);

/* An object whose data are these, which are given up; a field too many or too few is a decision too. */
void make_object(struct maker *m, struct text *t, unsigned type, unsigned compound, struct text *data);

/* A part of a layout that could be left out, be there twice, or have something before it: where it began is `from`. */
void part_made(struct maker *m, struct text *t, size_t from);

/* Objects of any kind, at most so many levels of them. */
void make_nested(struct maker *m, struct text *t, unsigned levels);

/* A byte or a few behind the last end. */
void make_last(struct maker *m, struct text *t);

/* An element with these names, of which the serial number may be a null pointer: null; where its inside begins. */
size_t make_named(struct maker *m, struct text *t, const struct made_name *id, const struct made_name *serial, uint64_t type,
                  unsigned levels);

/* What a request and a put begin with: versions, signature and user agent; then the sub-request of this type. */
void make_request_front(struct maker *m, struct text *t, uint64_t type);

/* Plain elements with these ids, of which the first is of this type; so many that follow one another share a serial number, and one
   in the middle has this one. */
void add_plain(struct text *t, unsigned from, unsigned to, uint64_t type, unsigned sharing, uint64_t serial);

void make_package(struct maker *m, struct text *t);
void make_filter(struct maker *m, struct text *t);

/* Never spoiled. */
unsigned extended_form(uint64_t number);
void extended_of(struct text *t, const struct made_name *id, unsigned form);
void serial_of(struct text *t, const struct made_name *serial);

#endif
