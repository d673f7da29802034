/* watch.h - keeps a modem's connections open and notices where it falls silent. Part of modem.c. */
#ifndef WATCH_H
#define WATCH_H

#include "modem.h"

/* The driver is new: its connections begin to open. */
void watch_begin(struct modem *m, int64_t now);

/* Keeps the time, the limits, the probes and the connections. It may find the line lost. */
void watch_turn(struct modem *m, int64_t now);

/* Whether the outcome is of a request of its own; if so, it is dealt with. */
bool watch_outcome(struct modem *m, const struct cimbaloty_outcome *o, int64_t now);

/* Closes a connection, if it is open; it is opened again then. False where this has to wait. */
bool watch_hang_up(struct modem *m, unsigned dlci);

int64_t watch_deadline(struct modem *m, int64_t now);

/* In modem.c: the line is lost, or the multiplexer has ended. The driver tells what it has left, and then goes. */
void modem_lose(struct modem *m, int64_t now, const char *why);
void modem_end_line(struct modem *m, int64_t now);

#endif
