/* The calls that a daemon written in C makes. For a hub: how long the answer to one request is, that answer, and a put applied to
   its store. For a bench: the request or the put that it sends, what came in the answer to it, and its book with that answer in it.
   They stand in libhub.a, which `make archive` writes to target/staticlib, for x86-64 Linux; of the C library the archive needs
   memset and memcpy at most.

   The calls are re-entrant: they take no memory from the heap, keep no state from one call to the next, and need no set-up.
   Any pointer may be null where its length is 0. They need HUB_STACK_BYTES of stack. The rest of what they promise, and the
   little that they ask for, stands above the first of them. */
#ifndef HUB_H
#define HUB_H

#include <stddef.h>
#include <stdint.h>

#ifdef __cplusplus
extern "C" {
#endif

/* The version of this header and of the archive that it was installed with. Before 1.0.0 the second number grows when a caller
   may have to change. */
#define HUB_VERSION_MAJOR 0
#define HUB_VERSION_MINOR 15
#define HUB_VERSION_PATCH 0
#define HUB_VERSION "0.15.0"

/* The longest store, the longest request and the longest put that are read; a longer one is refused with HUB_INPUT_TOO_LONG. So
   are filters, knowledge and elements to be handed in that are longer, and those that would make a longer request, put or store.
   No new store of hub_put is longer, and no new book of hub_keep: a buffer of so many bytes for either always suffices. */
#define HUB_LONGEST_INPUT 16777216u

/* The longest answer that is read. */
#define HUB_LONGEST_ANSWER_READ 16842752u

/* No answer of hub_write is larger: an output of so many bytes always suffices. So does, for a store of n bytes, one of
   n + HUB_ANSWER_OVER_STORE. If more than this is offered to hub_length, it tells the same. */
#define HUB_LARGEST_ANSWER 16842752u
#define HUB_ANSWER_OVER_STORE 65536u

/* An output of so many bytes is never too short for hub_put: its answer tells at most 256 ranges, and no elements. */
#define HUB_LARGEST_PUT_ANSWER 9284u

/* No request of hub_ask and no put of hub_ask_put is larger: an output of so many bytes always suffices. */
#define HUB_LARGEST_REQUEST 16777216u

/* How many bytes of the report every call writes, if the report has them. */
#define HUB_REPORT_BYTES 24u

/* How many hub_read writes after an answer that it takes, if the report has them. */
#define HUB_READ_REPORT_BYTES 88u

/* How many hub_put writes after a put that entered, if the report has them. */
#define HUB_PUT_REPORT_BYTES 32u

/* How many hub_read_put writes after an answer that it takes, if the report has them. */
#define HUB_READ_PUT_REPORT_BYTES 32u

/* How much stack a call needs below its caller's: what a thread has to have left. tests/stack.c holds each call to it. */
#define HUB_STACK_BYTES 65536u

/* The limit of a request that has no constraint: 2^64-1. */
#define HUB_NO_LIMIT 0xFFFFFFFFFFFFFFFFu

/* Where hub_element looks. */
#define HUB_IN_STORE 0u
#define HUB_IN_ANSWER 1u

/* What the calls return. */
enum hub_number {
    HUB_DONE = 0,              /* no refusal */
    HUB_INPUT_TOO_LONG = 1,    /* an input is over 16,777,216 bytes (an answer that is read: 16,842,752), or the request, the put, the
                                  new store or the new book to be written would be */
    HUB_RUNS_PAST = 2,         /* an item runs past the input or past the data it stands in */
    HUB_NO_FORM = 3,           /* an extended GUID or a serial number in no form or outside its form's range; a padded number in
                                  a request or a put, or in filters, a knowledge or elements for one */
    HUB_WRONG_END = 4,         /* an end of another type, or with nothing open */
    HUB_WRONG_LAYOUT = 5,      /* an object, a data length or a byte that the layout does not have there; a failed answer */
    HUB_TOO_DEEP = 6,          /* over 16 open compound objects, or over 17 in an answer that is read: inside an element over 14, or
                                  over 13 in a put */
    HUB_WRONG_VERSION = 7,     /* version or signature */
    HUB_NOT_SERVED = 8,        /* another sub-request, other arguments, another filter; a sub-response of another type */
    HUB_TOO_MANY = 9,          /* over 256 elements, also in a new store or book; 512 ranges and entries, 16 filters, 64 ids in one;
                                  a page of one group that needs over 512 ranges; a position past the last element */
    HUB_NULL_NAME = 10,        /* an element with a null id or a null serial number; in a put with a null id alone */
    HUB_SEEN_BEFORE = 11,      /* an id that another element has; a serial number may be that of several */
    HUB_FROM_ABOVE_TO = 12,    /* a range that ends before it begins */
    HUB_OUTPUT_TOO_SHORT = 14, /* the output, the length offered for it, or the buffer for a new store or book is too short; the
                                  report has the length needed */
    HUB_OTHER_INDEX = 15,      /* a put expects another storage index than the store has */
    HUB_NO_SERIAL_LEFT = 16    /* no serial number is left under the hub's GUID for what a put hands in */
};                             /* 13 is never returned: it is for tables that are lent, and no call here is lent any */

/* Where each number of a report begins. The first three are every call's, the others hub_read's alone, but for the id, which
   hub_read_put tells too, and the new store's length, which is hub_put's. */
enum hub_report {
    HUB_AT_INPUT = 0,          /* the input at fault; 0 where there is no refusal */
    HUB_AT_PLACE = 8,          /* the place of the fault, of the knowledge read or of the element found; else 0 */
    HUB_AT_LENGTH = 16,        /* the length of what was written, of the answer that hub_length decided, of that knowledge or of
                                  that element; that which out needs, or, of hub_put and hub_keep, the new store's or the new
                                  book's buffer */
    HUB_AT_ID = 24,            /* the id of the sub-request that is answered */
    HUB_AT_STORE_LENGTH = 24,  /* of hub_put: the length of the new store */
    HUB_AT_PARTIAL = 32,       /* the mark: 1 if the answer is partial, so that there is more to ask for; 0 if not */
    HUB_AT_ELEMENTS = 40,      /* the place where the first element stands or would stand */
    HUB_AT_COUNT = 48,         /* how many elements there are */
    HUB_AT_NAMED = 56,         /* the storage index: 1 if there is one; 0, and 0 in the next three too, if it is null */
    HUB_AT_GUID_LOW = 64,      /* bytes 0 to 7 of its GUID; in the report the sixteen bytes stand as they are sent */
    HUB_AT_GUID_HIGH = 72,     /* bytes 8 to 15 */
    HUB_AT_GUID_NUMBER = 80    /* its number */
};

/* One number of a report, as hub_report_number(report, HUB_AT_LENGTH). The report must have it: 8 bytes from there on. */
static inline uint64_t hub_report_number(const uint8_t *report, size_t at) {
    uint64_t number = 0;
    size_t i;
    for (i = 8; i > 0; i--) {
        number = number * 256u + report[at + i - 1];
    }
    return number;
}

/* What a number that a call returned means, in a few words for a log; never a null pointer, whatever the number is. */
static inline const char *hub_refusal_text(uint64_t number) {
    switch (number) {
    case HUB_DONE: return "no refusal";
    case HUB_INPUT_TOO_LONG: return "an input, or what is to be written, is too long";
    case HUB_RUNS_PAST: return "an item runs past the input or the data it stands in";
    case HUB_NO_FORM: return "an extended GUID or a serial number has no form, or a number of a request is padded";
    case HUB_WRONG_END: return "an end is of another type, or nothing is open";
    case HUB_WRONG_LAYOUT: return "the layout does not have this here, or the answer says that it failed";
    case HUB_TOO_DEEP: return "objects are nested too deep";
    case HUB_WRONG_VERSION: return "the version or the signature is wrong";
    case HUB_NOT_SERVED: return "this sub-request or sub-response, its arguments or its filter are not served";
    case HUB_TOO_MANY: return "there are too many, or there is none at this position";
    case HUB_NULL_NAME: return "an element has a null id or a null serial number";
    case HUB_SEEN_BEFORE: return "another element has the same id";
    case HUB_FROM_ABOVE_TO: return "a range ends before it begins";
    case 13: return "a lent table is too short, which no call here says";
    case HUB_OUTPUT_TOO_SHORT: return "the output, the length offered for it, or the buffer for a new store is too short";
    case HUB_OTHER_INDEX: return "the store has another storage index than the put expects";
    case HUB_NO_SERIAL_LEFT: return "no serial number is left";
    default: return "not the number of a refusal";
    }
}

/* What all nine calls promise, whatever bytes they are handed, damaged or hostile ones too:
   - The report tells more than the number that is returned, in 8-byte numbers, the lowest byte first. After a refusal these
     are three: the input at fault (0 or 1), the place of the fault in it, and a length, which after HUB_OUTPUT_TOO_SHORT is
     the one that out needs, or has to be offered for it, or, of hub_put and hub_keep, that the new store's or the new book's buffer
     needs, and else is 0. The place of an item that is missing is where it would stand, which may be the input's length. A refusal
     that falls on no item has input 0 and place 0: HUB_OUTPUT_TOO_SHORT, HUB_OTHER_INDEX, HUB_NO_SERIAL_LEFT, HUB_TOO_MANY for a
     page, a position, a new store or a new book, HUB_INPUT_TOO_LONG of a request, a put, a new store or a new book that would itself
     be too long, and HUB_NO_FORM of a storage index whose number is over 32 bits. Bytes of the report behind those that are told
     stay as they were. A report of under 24 bytes is left alone.
   - Equal inputs and equal numbers with an output of equal length, and of hub_put with a new store's buffer of equal length too,
     get the same result. A call keeps nothing for the next one, reads nothing but its inputs, writes nothing but out, the new
     store or the new book and the report, takes no memory from the heap, and comes back.

   Padded numbers. A compact integer is padded if a shorter form has its value too, as `02 00` for 0, and so is `01`, as 0 is
   the byte `00`; old benches write such numbers. They count as their values, or are refused with HUB_NO_FORM at the number, by
   where they stand:
   - In a store and in an answer that is read they are taken: the type of an element, the id and the type of a sub-response, from
     and to of a range, and the true length behind a long header, inside elements too.
   - In a request they are refused, in every part of it: also where objects are only passed over, as in its user agent, in
     knowledge of another kind and in its package. So they are in filters and knowledge that are handed in for a request.
   - A put is a request: they are refused in it too, inside its elements as well, and in elements that are handed in for one. So
     an element that came from a hub with such a number cannot be put as it is.
   - None is written. An element goes out with its stored bytes, its padded numbers too, and a bench reads them.
   Extended GUIDs and serial numbers have one form for each value, and another one is refused everywhere.

   Groups. Elements of a store whose serial numbers are equal, GUID and number, are a group; an element whose serial number no other
   has is a group by itself. A bench that knows a serial number is never sent it again, so a group goes out whole or not at all:
   - It is wanted if the knowledge lacks its serial number and the filters leave in one of its members or more. All members then go
     out, those that the filters put out too.
   - In a page it counts as one, with the lengths of all its members together, and adds one serial number to the knowledge.
   - Counts and positions are of elements: at most 256 of them, and no id twice, in a store, an answer or a put. 9 for a page and 14
     go by the first group.
   - A bench takes each element by its id, as hub_keep does. One that comes with the id of another replaces it in the book; one that
     comes with the serial number of another and not with its id stands beside it.

   What the caller owes, and nothing checks:
   - Each pointer has as many bytes behind it as the length beside it says. With a length of 0 it may be a null pointer.
   - out, the buffer for a new store or a new book and the report overlap neither each other nor an input. Inputs may overlap.
   - Nothing else writes to the buffers of a call while it runs. Calls on buffers of their own may run side by side.
   - HUB_STACK_BYTES of stack are left, 64 KiB. On inputs as deep, as many and as long as they may be, hub_keep takes
     61 KiB, hub_put 57, hub_length and hub_write 49, hub_read and hub_element 42, hub_read_put 41, hub_ask_put 25, and hub_ask 19. That is
     measured, and not proved. */

/* Decides the answer to one Query Changes request from a store, for an output of `offered` bytes, and tells its exact length.
   Offer what you are willing to lend, or HUB_LARGEST_ANSWER; lend hub_write an output of the length that is told.

   It returns 0 or the number of a refusal, and tells the same report, as hub_write does with an output of `offered` bytes; it
   writes nothing but the report. The input at fault is 0 for the store and 1 for the request. After 0 the report's three numbers
   are 0, 0 and the answer's length.

   Row order is by rank, and within a rank as the store has the elements: type 1, the storage index, is first, then come 2, 3 and 4,
   the manifests, then all others. A group that is wanted stands where its first member does in this order, left in by the filters
   or not, and its members follow one another in it. So the first answer of a talk brings the storage index, if it is wanted.

   A shorter output shortens the page, which is the groups that the answer has: those that do not fit are left for the next
   ask. The length needed after HUB_OUTPUT_TOO_SHORT is that of the smallest page: the first group, with all its members, or none if
   none is wanted. Into an output of exactly the told length hub_write writes that same page, as long as store and request are the
   same. */
uint64_t hub_length(const uint8_t *store, size_t store_len,
                    const uint8_t *request, size_t request_len,
                    uint64_t offered,
                    uint8_t *report, size_t report_len);

/* Answers one Query Changes request from a store. It knows of no call of hub_length before it, trusts nothing, and decides the page
   again, for an output of out_len bytes.

   It returns 0, and the answer then stands in the first bytes of out; or it returns the number of a refusal, and out is as it
   was. Bytes of out behind the answer always stay as they were. The input at fault is 0 for the store and 1 for the request.
   After an answer the report's three numbers are 0, 0 and the answer's length. Groups come in row order, the storage index first,
   as hub_length says. A shorter output shortens the page, and the length needed after HUB_OUTPUT_TOO_SHORT is that of the smallest
   page: one group, or none if none is wanted. */
uint64_t hub_write(const uint8_t *store, size_t store_len,
                   const uint8_t *request, size_t request_len,
                   uint8_t *out, size_t out_len,
                   uint8_t *report, size_t report_len);

/* Applies one Put Changes request to a store, under the hub's own GUID, bytes 0 to 7 and 8 to 15 as numbers: a new store is
   written, and the answer. The store that is handed in is read, and never written to.

   What enters gets new serial numbers under that GUID in the put's order, from one above the highest number that the store has
   under it (1 if there is none). An element whose id the put has is replaced where it stands, new ones follow at the end, and all
   others stay byte for byte. Each that enters has a number of its own, also where those that came are equal; a member of a group
   that is replaced leaves the group, and the others stay in it. The answer's knowledge has a serial number that several elements
   share once. Nothing enters unless the put expects the storage index that the store has, which is the id of its first element of
   type 1, or none where it has none: else HUB_OTHER_INDEX. A store that changed otherwise is not noticed.

   It returns 0, and the new store then stands in the first bytes of new_store and the answer in those of out; or it returns the
   number of a refusal, and both are as they were. Bytes behind what was written always stay as they were. The input at fault is 0
   for the store and 1 for the put. Behind the faults of the store and then of the put come HUB_OTHER_INDEX, HUB_NO_SERIAL_LEFT,
   HUB_TOO_MANY for over 256 elements, HUB_INPUT_TOO_LONG for a new store of over 16,777,216 bytes, HUB_OUTPUT_TOO_SHORT for the
   new store's buffer, and HUB_OUTPUT_TOO_SHORT for out. Which of the two was meant is not told: lengthen each that is shorter than
   the length that is told, and call again; so it comes at most twice. A new store's buffer of HUB_LONGEST_INPUT and an out of
   HUB_LARGEST_PUT_ANSWER always suffice. After a put the report's three numbers are 0, 0 and the answer's length; a report of 32
   bytes or more takes the new store's length behind them. To save the new store is the caller's to do. */
uint64_t hub_put(const uint8_t *store, size_t store_len,
                 const uint8_t *request, size_t request_len,
                 uint64_t guid_low, uint64_t guid_high,
                 uint8_t *new_store, size_t new_store_len,
                 uint8_t *out, size_t out_len,
                 uint8_t *report, size_t report_len);

/* Writes the request that a bench sends: one Query Changes sub-request with this id, for the groups of which the filters leave in a
   member and the knowledge lacks the serial number, in an answer with at most `limit` bytes of elements, or one group
   (HUB_NO_LIMIT: no constraint is written).

   The filters are the bytes of at most 16 of them as a request has them, one behind the other, or none. The knowledge is the
   bytes of one as a request or an answer has it, or none. It may be handed in from where it stands in the buffer of an answer,
   which hub_read tells, if out is another buffer. Both are judged as they would be in a request, with places in the bytes that
   were handed in, and go into the request as they stand. So a knowledge that hub_read takes in an answer may be refused here:
   with HUB_NO_FORM at a padded number; with HUB_TOO_DEEP where one of another kind has objects one level deeper than a request
   may have them; and with HUB_INPUT_TOO_LONG, as an answer may be longer than a request. All three can stand in the answer of
   another maker's hub, and never in one of hub_write. Asking again without the knowledge would bring the same answer again.

   It returns 0, and the request then stands in the first bytes of out; or it returns the number of a refusal, and out is as it
   was. Bytes of out behind the request always stay as they were. The input at fault is 0 for the filters and 1 for the
   knowledge; of their faults the filters' come first. Then a request that would itself be over 16,777,216 bytes is refused
   with HUB_INPUT_TOO_LONG, input 0 and place 0, and after that comes HUB_OUTPUT_TOO_SHORT. After a request the report's three
   numbers are 0, 0 and the request's length. */
uint64_t hub_ask(uint64_t id, uint64_t limit,
                 const uint8_t *filters, size_t filters_len,
                 const uint8_t *knowledge, size_t knowledge_len,
                 uint8_t *out, size_t out_len,
                 uint8_t *report, size_t report_len);

/* Reads an answer to a Query Changes request, of this hub or of another that sends the same parts: a package and a knowledge are
   there, even if they are empty, and no id comes twice. Serial numbers may. That a group came whole is not judged, as no answer
   tells it: the hub owes it, and who knows a serial number is never sent what was left out.

   It returns 0, or the number of a refusal; the input at fault is always 0. An answer by which the other side says that it
   failed, with the low bit of a status byte set, is refused with HUB_WRONG_LAYOUT at that byte. The id that comes is not
   compared with one that was asked with: that is the caller's to do.

   After an answer the report's three numbers are 0, the place of the knowledge in the answer and its length: those bytes are
   what the next hub_ask is handed. A report of 88 bytes or more takes eight numbers behind them: id, mark, place and number of
   the elements, and the storage index (enum hub_report). A report of 24 to 87 bytes does not tell them, nor so whether there
   is more to ask for. The elements stand one behind the other from their place on. After a refusal only the first three
   numbers are told, however long the report is. */
uint64_t hub_read(const uint8_t *answer, size_t answer_len,
                  uint8_t *report, size_t report_len);

/* Keeps an answer in the book of a bench: the book with what came in the answer is written as a new one. The book is a store, at
   first the empty one, the four bytes AC 02 00 55. Book and answer are read, and never written to.

   An element whose id the answer has is replaced where it stands by the answer's. New ones follow at the end, in the answer's order,
   and all others stay. Every element keeps its bytes as they came, its serial number and padded numbers too; only the package around
   them is written anew: AC 02 00, the elements, 55. Ids alone count: elements that share a serial number stand side by side, and a
   group that came whole is in the book whole. An answer that is kept a second time changes nothing more.

   It returns 0, and the new book then stands in the first bytes of new_book; or it returns the number of a refusal, and new_book is
   as it was. Bytes behind what was written always stay as they were. The input at fault is 0 for the book and 1 for the answer. The
   faults of the book, which are those of a store, come first, then those of the answer, which are exactly those that hub_read tells
   for it. Behind them come HUB_TOO_MANY for over 256 elements, HUB_INPUT_TOO_LONG for a new book of over 16,777,216 bytes, and
   HUB_OUTPUT_TOO_SHORT, all three with input 0 and place 0. A buffer of book_len + answer_len bytes always suffices, and so does one
   of HUB_LONGEST_INPUT. After 0 the report's three numbers are 0, 0 and the new book's length.

   Id, mark and knowledge of the answer are not told: hub_read tells them, and its id is compared before the answer is kept. To save
   is the caller's to do, the book first and the knowledge behind it: a knowledge that is ahead of its book loses what came. */
uint64_t hub_keep(const uint8_t *book, size_t book_len,
                  const uint8_t *answer, size_t answer_len,
                  uint8_t *new_book, size_t new_book_len,
                  uint8_t *report, size_t report_len);

/* Writes the put that a bench sends: one Put Changes sub-request with this id, which hands in the elements if the store's first
   storage index is the one that is expected. None is expected if `named` is 0, and then the next three do not count; else the
   one with this GUID, bytes 0 to 7 and 8 to 15 as numbers, and this number of at most 32 bits: as hub_read tells them.

   The elements are the bytes of at most 256 of them as a put has them, one behind the other, with no package around them, or
   none. They are judged as they would be in a put, with places in the bytes that were handed in, and go into the put as they
   stand: padded numbers are refused with HUB_NO_FORM, over 13 open objects inside an element with HUB_TOO_DEEP, an id that comes
   twice with HUB_SEEN_BEFORE, and bytes that are no element as a start of one would be. An element of a store or of an answer may
   have such numbers, and 14 open objects inside, and is then refused here. Serial numbers must be well formed, and may be null or
   come twice: the hub gives its own. One thing is judged otherwise than in a put: bytes that end inside an element are
   HUB_RUNS_PAST at the item that is cut or missing, where in a put the package's end would be read.

   It returns 0, and the put then stands in the first bytes of out; or it returns the number of a refusal, and out is as it was.
   Bytes of out behind the put always stay as they were. The input at fault is always 0. A number over 32 bits is refused first,
   with HUB_NO_FORM and place 0; then come the faults of the elements, then HUB_INPUT_TOO_LONG with place 0 where the put itself
   would be over 16,777,216 bytes, then HUB_OUTPUT_TOO_SHORT. After a put the report's three numbers are 0, 0 and its length. */
uint64_t hub_ask_put(uint64_t id, uint64_t named, uint64_t guid_low, uint64_t guid_high, uint64_t number,
                     const uint8_t *elements, size_t elements_len,
                     uint8_t *out, size_t out_len,
                     uint8_t *report, size_t report_len);

/* Reads the answer to a put: as hub_read, but with a sub-response of type 5, and the knowledge of every serial number that the
   store now has behind it. It returns 0, or the number of a refusal; the input at fault is always 0. A package must be there here
   too, even if it is empty: the answer that MS-FSSHTTPB prints in 4.4 has none, and is refused with HUB_WRONG_LAYOUT at 17.

   After an answer the report's three numbers are 0, the place of the knowledge in the answer and its length. Never ask with this
   knowledge: it has serial numbers of elements that this bench did not get, and they would then never come. Ask with the knowledge
   that the bench had. A report of 32 bytes or more takes the id behind the three: to compare it with the one that was put with is
   the caller's to do. After a refusal only the first three numbers are told. */
uint64_t hub_read_put(const uint8_t *answer, size_t answer_len,
                      uint8_t *report, size_t report_len);

/* Finds one element by its position, counted from 0, in a store (kind HUB_IN_STORE) or in an answer (kind HUB_IN_ANSWER, or any
   other number). Positions count as the elements stand in these bytes: a store's go by its own order, and not by rank.

   It returns 0, or the number of a refusal; the input at fault is always 0. The faults of the store or the answer, which every
   call reads whole again, come first; then HUB_TOO_MANY, with place 0, for a position that no element has. After an element is
   found the report's three numbers are 0, the place of its first byte and its length. */
uint64_t hub_element(uint64_t kind, const uint8_t *bytes, size_t bytes_len, uint64_t position,
                     uint8_t *report, size_t report_len);

#ifdef __cplusplus
}
#endif

#endif
