/* events.h - unsolicited lines, for the terminals that they go to. */
#ifndef EVENTS_H
#define EVENTS_H

#include "terminal.h"

struct kept {
	char *text;
	size_t length;
};

struct events {
	struct terminals *terminals;
	const struct options *options;
	struct kept *kept;      /* a ring of options->keep lines, while nobody reads */
	unsigned first, count;
	unsigned long unkept;   /* lines that had no place there */
	unsigned long lines;    /* all that came */
};

/* False where there is no memory. */
bool events_open(struct events *e, struct terminals *ts, const struct options *o);

/* Says how many lines were never read, and frees them. */
void events_close(struct events *e);

/* Whether a line is to be taken from the driver: each terminal that is read has room, or none is read. */
bool events_have_room(const struct events *e);

/* Puts a line on each terminal that is read; where none is, it is kept, and then the oldest may have to go. */
void events_put(struct events *e, const char *line, size_t length);

/* Gives kept lines to the first program that came, and says how many weren't kept. */
void events_look(struct events *e);

#endif
