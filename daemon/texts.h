/* texts.h - commands that ask for a text behind a prompt (27.005, 3.3.1). */
#ifndef TEXTS_H
#define TEXTS_H

#include <stdbool.h>
#include <stddef.h>

/* The octets that end a text, to be sent or to be given up (27.005, 3.3.1): SUB and ESC. */
enum { SENDS_TEXT = 0x1A, GIVES_TEXT_UP = 0x1B };

/* Whether a command line asks for the text of an SMS: its last command is +CMGS, +CMGW or +CMGC (27.005, 3.5.1, 3.5.3 and 3.5.5), and
 * doesn't ask which values there are. */
bool texts_are_asked(const char *line, size_t length);

#endif
