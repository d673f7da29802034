/* modem.h - the modem: its line, the entry, the driver and the driver's connections. */
#ifndef MODEM_H
#define MODEM_H

#include "cimbaloty.h"
#include "cimbaloty_data.h"
#include "entry.h"
#include "options.h"
#include "terminal.h"

enum modem_stage {
	MODEM_GONE,             /* the line isn't open; the next try is at `retry_at` */
	MODEM_ENTERING,
	MODEM_UP,
	MODEM_LEFT              /* the driver is to be freed, once all is polled */
};

struct connection {
	uint64_t request;       /* to open or close it; 0: none */
	int64_t opened_at, retry_at;
	unsigned wait;          /* milliseconds to the next try */
	bool is_told;           /* it was said that it doesn't open */
};

struct modem {
	const struct options *options;
	struct cimbaloty c;
	struct cimbaloty_data relay;    /* between the line and the driver, where connections carry data; else none */
	struct cimbaloty_dialect *codes;
	int fd;
	enum modem_stage stage;
	struct entry entry;
	struct cimbaloty_frames came, went;
	uint8_t in[4096], out[4096], given[1024];       /* given: what the driver gave, and the relay has to take */
	size_t in_at, in_length, out_at, out_length, given_at, given_length;
	bool is_blocked;        /* octets wait at the relay, for memory or for output to go first */
	bool is_queue_long;     /* data may wait until the terminal has sent octets that it has */
	uint64_t last;          /* the last number of a request */
	size_t commands;        /* under way */
	struct connection connections[CONNECTIONS + 1];
	/* time */
	int64_t retry_at, up_at, heard_at, tick_at;
	unsigned wait;
	/* probes */
	uint64_t probe;         /* the request under way; 0: none */
	int64_t probe_at;
	unsigned missed;        /* probes without an answer, one behind the other */
	enum { PROBES_UNKNOWN, PROBES_ANSWERED, PROBES_IGNORED } probes;
	/* the end */
	uint64_t stop;          /* the request to end the multiplexer; 0: none */
	bool is_to_end;
	/* what was said, and what is counted */
	char told[160];
	bool said_longer;       /* since the modem was entered */
	uint64_t cut_on;        /* connections on which a frame longer than N1 came since a command was asked there */
	unsigned long entries, losses, openings[CONNECTIONS + 1];
};

/* Opens the line for the first time. False, with the reason said, where another program drives it or it is no terminal;
 * what else stands in the way may pass, and is tried again. */
bool modem_begin(struct modem *m, const struct options *o, struct cimbaloty_dialect *codes, int64_t now);

/* What poll(2) is to wait for on m->fd, and until when (milliseconds()). */
short modem_events(const struct modem *m);
int64_t modem_deadline(struct modem *m, int64_t now);

/* Does what there is to do: opens the line, enters, reads, keeps the time, opens connections. */
void modem_turn(struct modem *m, int64_t now, bool can_read);

/* Writes what waits for the line, as far as there is room. */
void modem_send(struct modem *m, int64_t now);

/* Whether data of a connection may be given, as it is open and carries data now. */
bool modem_carries_data(struct modem *m, unsigned dlci);

/* Whether a connection is about to open: a command for it may wait. */
bool modem_waits(const struct modem *m, unsigned dlci);

/* Sends a command line; false where it is none, is too long, the connection carries data, or the modem isn't there. */
bool modem_ask(struct modem *m, unsigned dlci, const char *text, size_t length, uint64_t *number);

/* Sends a command that asks for a text, which leaves behind the modem's prompt; false as modem_ask, and where the text is too long. */
bool modem_ask_text(struct modem *m, unsigned dlci, const struct text *text, uint64_t *number);

/* A command that asked for a text has its outcome: if no prompt came, the text isn't sent. */
void modem_end_text(struct modem *m, unsigned dlci);

/* A lane of data begins there, of the opening that there is or of the next. */
void modem_begin_lane(struct modem *m, unsigned dlci);

/* Whether a frame longer than N1 was dropped there since a command was asked: its answer isn't whole. */
bool modem_is_cut(const struct modem *m, unsigned dlci);

/* Takes the next outcome of a command; free the text. */
bool modem_outcome(struct modem *m, struct cimbaloty_outcome *o, char **text, int64_t now);

/* Takes the next unsolicited line. */
bool modem_line(struct modem *m, struct cimbaloty_line *u, char *text, size_t room);

/* Ends a driver that has nothing more to tell, once the line is lost or left. */
void modem_settle(struct modem *m, int64_t now);

/* Ends the multiplexer, if it is up, and leaves the line. Where it isn't to end, the line is opened again. */
void modem_leave(struct modem *m, bool is_to_end, int64_t now);

/* Closes the line and frees the driver, as they are. */
void modem_end(struct modem *m);

/* How many connections are open; how one stands, in words; for how many milliseconds its command has waited. */
unsigned modem_open_count(struct modem *m);
const char *modem_state(struct modem *m, unsigned dlci);
uint64_t modem_waited(struct modem *m, unsigned dlci);

#endif
