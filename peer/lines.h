/* One function for each kind of case (crates/cases/README.md): what the peer makes of it, without the end of the line. */
#ifndef PEER_LINES_H
#define PEER_LINES_H

#include "text.h"
#include "words.h"

typedef void line_of(const struct given *g, struct text *told);

/* Single items, read and written. */
line_of compact_line, exguid_line, serial_line, header_line;
line_of wcompact_line, wexguid_line, wserial_line, wstart_line, wend_line;

/* A store, a knowledge and a request, read whole. */
line_of store_line, knowledge_line, rewritten_line, known_line, chosen_line, request_line;

/* The calls of peer.h but the two that take a put and keep an answer. */
void begin_calls(void);
line_of length_line, write_line, ask_line, read_line, element_line, received_line, ask_put_line, read_put_line;

/* These. */
void begin_puts(void);
void begin_keeps(void);
line_of put_line, keep_line;

#endif
