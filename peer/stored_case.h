/* A stored case, as the reader of player/ hands it on, as a case of the drivers. */
#ifndef PEER_STORED_CASE_H
#define PEER_STORED_CASE_H

#include "../player/stored.h"
#include "cases.h"

/* The inputs stay where they are, and are the stored case's to free. The report, which a line does not tell, has no bytes. */
struct one_case case_of(const struct stored *s);

#endif
