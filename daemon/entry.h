/* entry.h - brings a modem from plain commands into the multiplexer: octets in, octets out, no I/O.
 *
 * The texts are sent one behind the other, each once the one before it was answered: AT and the commands of --init,
 * where there are any, and then the command that enters (27.007, 5.7). Where nothing answers the first of them, a modem
 * that was left in the multiplexer is told to close down (27.010, 5.4.6.3.3), given time, and asked again. Before that go
 * N1 + 3 flags, which end a frame that a driver left unfinished, and behind it a CR: to a modem at plain commands all of it
 * is a line of its own. */
#ifndef ENTRY_H
#define ENTRY_H

#include "options.h"
#include <stddef.h>
#include <stdint.h>

enum entry_state {
	ENTRY_GOES_ON,
	ENTRY_DONE,             /* OK came: what follows belongs to the multiplexer */
	ENTRY_REFUSED,          /* the modem refuses to enter: `line` has its answer */
	ENTRY_SILENT            /* it doesn't answer */
};

struct entry {
	const struct options *options;
	enum entry_state state;
	unsigned step;          /* which text is under way */
	unsigned tries;         /* how often the first one was sent */
	bool is_pausing;        /* a close-down was sent, and the modem has time until `until` */
	bool is_behind_close_down;      /* the text under way is the first one behind it */
	int64_t until;          /* when the pause or the time for an answer is over */
	char line[128];         /* what came of a line */
	size_t length;
	unsigned flags;         /* flags that are to be sent first */
	char out[COMMAND + 2];  /* what is to be sent */
	size_t out_length;
};

void entry_begin(struct entry *e, const struct options *options, int64_t now);

/* Takes octets that came, up to the end of the entry, and says how many it took. */
size_t entry_take(struct entry *e, const uint8_t *octets, size_t count, int64_t now);

/* Goes on where the time is over. */
void entry_pass(struct entry *e, int64_t now);

/* Gives what is to be sent, up to `room` octets. */
size_t entry_output(struct entry *e, uint8_t *octets, size_t room);

#endif
