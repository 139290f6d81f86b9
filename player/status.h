/* How the program ends. --help prints the same table (options.c). */
#ifndef STATUS_H
#define STATUS_H

enum status {
    ENDED_WELL = 0,       /* the talk came to its end, or was stopped where it was asked to; the dump or the replay is whole;
                             the book is in step */
    WRONG_USE = 2,        /* the words after the program's name are none that it takes, or none that go together */
    CANNOT_OPEN = 3,      /* a file cannot be opened or read */
    TOO_LARGE = 4,        /* a file has more bytes than the library reads */
    WRONG_CONTENT = 5,    /* a file is no store, no filters, no cases, has no elements that can be handed in, or no well-formed
                             objects to dump */
    BOOK_DAMAGED = 6,     /* the book is no store; it stays as it is */
    REFUSED = 7,          /* the library refuses where a talk has no refusal, what came is not what was asked for, or the store had
                             another storage index each time that it was put to */
    BOUND_PASSED = 8,     /* more answers than a talk can have */
    CANNOT_WRITE = 9,     /* the book, its knowledge, the store of a put, its lock or the output cannot be written. The book is
                             whole: as the last save left it, or new if its knowledge alone could not take its name (the old one
                             is passed over next time). The store is whole: the old one, or the new one with the put in it */
    PROMISE_BROKEN = 10,  /* a call did not keep what include/hub.h promises */
    FULL = 11,            /* the elements that came do not fit into one store with those that the book has, or those handed in
                             with those of the store */
    NO_MEMORY = 12,       /* there is no memory for a buffer */
    NOT_IN_STEP = 13      /* the book lacks an element of the store that is known, or has it with other bytes */
};                        /* 1 is left free: it is what a shell or an emulator gives that cannot run the program */

#endif
