/* What the program `cases` takes (crates/cases/README.md). */
#ifndef PEER_TAKEN_H
#define PEER_TAKEN_H

/* Inputs of so many bytes together, as they stand in one space there, and an answer's output of as many; the outputs of a single
   item, a knowledge and a request; so many numbers of a table. Lines of 4 MiB would be too long for it by one byte. */
#define LONGEST_BYTES 1048576u
#define LONGEST_ITEM 512u
#define LONGEST_KNOWLEDGE 20000u
#define LONGEST_REQUEST 65536u
#define LONGEST_TABLE 5120u
#define LONGEST_FILE 4194303u

#endif
