/* modem.h - the other end of a driver's line. */
#ifndef MODEM_H
#define MODEM_H

#include <stddef.h>
#include <stdint.h>

enum { MODEM_LINE = 40000, MODEM_OUT = 1 << 20 };

struct modem {
	size_t n1;
	const char *line;       /* what it says before OK, */
	size_t lines;           /* so many times */
	unsigned long commands; /* that it answered */
	uint8_t in[40000];
	size_t in_length, wanted;
	uint8_t out[MODEM_OUT]; /* what it says and wasn't fetched yet */
	size_t length;
};

/* The line gives it these octets. */
void modem_hears(struct modem *m, const uint8_t *octets, size_t length);

/* It says a line on a connection. */
void modem_says(struct modem *m, unsigned dlci, const char *text);

#endif
