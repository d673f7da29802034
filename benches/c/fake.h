/* fake.h - a modem that answers as it is asked, of its own making: nothing here comes from the library. */
#ifndef FAKE_H
#define FAKE_H

#include <stdbool.h>
#include <stddef.h>
#include <stdint.h>

enum { FAKE_CONNECTIONS = 62, FAKE_LINE = 600, FAKE_OUT = 1 << 17 };

struct fake {
	bool is_multiplexed;    /* it reads plain AT commands before, and after a CLD */
	bool is_mute;           /* it answers nothing */
	bool is_open[FAKE_CONNECTIONS];
	uint8_t in[4096];
	size_t in_length;
	uint8_t out[FAKE_OUT];  /* what it says and wasn't fetched yet */
	size_t out_length;
	char line[FAKE_CONNECTIONS][FAKE_LINE];
	size_t line_length[FAKE_CONNECTIONS];
	unsigned long commands, openings, probes, stops, bad, rings, held;
};

/* The line gives it these octets. */
void fake_hears(struct fake *f, const uint8_t *octets, size_t length);

/* The next octets that it says, at most `room`. */
size_t fake_says(struct fake *f, uint8_t *octets, size_t room);

/* It says a line on a connection of its own accord. */
void fake_reports(struct fake *f, uint8_t dlci, const char *line);

/* What it answers to AT+N=x on a connection: +N: and this number, and OK. */
unsigned long fake_number(unsigned long x, unsigned dlci);

#endif
