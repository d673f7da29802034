/* terminal.h - pseudo-terminals that programs open in place of the modem.
 *
 * This program holds both ends, so that a terminal outlives the programs on it. inotify tells when a program opens,
 * writes or closes its end. Once the last one has closed it, the terminal is as it was at first: what that program wrote and
 * what it didn't read is dropped, and settings are raw. */
#ifndef TERMINAL_H
#define TERMINAL_H

#include "options.h"
#include <stddef.h>
#include <stdint.h>
#include <termios.h>

enum { PENDING = 4096, TEXT = 4096 };

/* A command that asks for a text, and its text as far as a program wrote it, with the octet that ends it. */
struct text {
	char command[COMMAND], octets[TEXT];
	size_t command_length, length;  /* length: TEXT + 1 where it is too long */
	char end;                       /* the octet that ends it, once it is there */
};

struct terminal {
	bool is_data;           /* raw octets; who has it reads and writes them, not this module */
	char path[300], device[64];
	int ours, theirs, watch;
	struct termios raw;
	/* what programs wrote: octets that came, the last `fresh` of them in this round, and a line as far as it goes */
	char in[PENDING];
	size_t in_length, fresh;
	char line[COMMAND + 1];
	size_t length;          /* COMMAND + 1 where it is too long */
	struct text *text;      /* what a program is asked for: no line is read before it is there; NULL: nothing */
	/* what isn't written to programs yet */
	char *out;
	size_t out_at, out_length, out_room;
	/* who is there */
	unsigned opens;
	bool has_left;          /* in this round the last program left, and whether the others wrote before and behind that; of data: since it was seen off */
	bool wrote_before, wrote_behind;
	bool read_behind;       /* one that came then read what the last one hadn't */
	bool is_last_line;      /* `in` has a line of a program that has left */
	/* the request under way */
	uint64_t asked;
	bool is_waiting, is_orphan;     /* orphan: who asked has left, the answer is dropped */
	unsigned long commands;
};

struct terminals {
	struct terminal *all;   /* 0 is for events */
	unsigned count;         /* of those for commands */
	struct terminal *data;  /* behind those, for data */
	unsigned total;         /* of all */
	int watcher;            /* inotify */
	const struct options *options;
};

/* Makes the terminals, and links to them in the folder. False, with what is wrong said, where one can't be made. */
bool terminals_open(struct terminals *ts, const struct options *o);
void terminals_close(struct terminals *ts);

/* Hangs a terminal up for all who have it: another takes its place. */
void terminals_renew(struct terminals *ts, struct terminal *t, const char *why);

/* Sets a terminal as it was at first, and drops what wasn't read; false where it was hung up, so that nothing can be set. */
bool terminal_reset(const struct terminal *t);

/* Reads what programs wrote, and then sees who came and left. */
void terminals_look(struct terminals *ts);

/* Whether a whole line stands in t->line, t->length octets long; none does before the answers were read. Set the length
 * to 0 once it is taken. */
bool terminal_next_line(struct terminal *t);

/* The line that stands there asks for a text: the program is prompted for it. False where there is no memory. */
bool terminal_ask_text(struct terminal *t);

/* Whether the whole text stands there. Free it, and set it to NULL, once it is taken. */
bool terminal_next_text(struct terminal *t);

/* Puts a line into what is to be written, between CR LF and CR LF (V.250, 5.7.1). */
void terminal_put(struct terminal *t, const char *text, size_t length);

/* Puts octets there as they are. */
void terminal_put_raw(struct terminal *t, const void *octets, size_t length);

/* How many octets wait to be written, and the writing of them as far as there is room. */
size_t terminal_waits(const struct terminal *t);
void terminal_write(struct terminal *t);

#endif
