/* data.h - connections that carry data: a pseudo-terminal of raw octets for each.
 *
 * What a program writes there goes to the modem while the connection is open and carries data, and waits before. Once the last
 * program has closed the terminal, and what it wrote has gone, the connection is closed and opened again: so the modem hangs up. Where
 * the modem closes the connection, or loses its carrier where that is to end data, or the line is lost, the terminal is hung up once its
 * program has read all that came. */
#ifndef DATA_H
#define DATA_H

#include "modem.h"
#include "terminal.h"

enum lane_state {
	LANE_SERVES,            /* octets pass between terminal and modem */
	LANE_HANGS_UP,          /* the data has ended: the program reads what came before, and then its terminal is hung up */
	LANE_LEAVES,            /* the program has left: what it wrote goes to the modem, what comes is dropped */
	LANE_CLOSES             /* the connection is closed for it */
};

struct lane {
	unsigned dlci;
	struct terminal *terminal;
	enum lane_state state;
	bool carries, has_carried;      /* data passes; it has, since the lane began */
	uint8_t *in;                    /* what a program wrote, and the relay hasn't taken */
	size_t in_at, in_length, in_room;
	int64_t until;                  /* when what a program that has left wrote is given up */
	unsigned long came, went;       /* octets */
};

struct data {
	struct lane all[LANES];
	unsigned count;
	struct terminals *terminals;
	struct modem *modem;
};

void data_open(struct data *d, struct terminals *ts, struct modem *m, const struct options *o);
void data_close(struct data *d);

/* Sees which programs have left, behind terminals_look. */
void data_look(struct data *d, int64_t now);

/* Passes octets both ways, and gives whether the relay took some. Call it before a driver that has lost its line goes. */
bool data_turn(struct data *d, int64_t now);

/* What poll(2) is to wait for on a lane's terminal, and when something is due. */
short data_events(const struct lane *l);
int64_t data_deadline(const struct data *d);

#endif
