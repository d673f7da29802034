/* fake.c - a modem at octets: the basic option of 27.010 read and written by hand.
 *
 * AT+N=x is answered by +N: and a number that follows from x and the connection, with a RING before every
 * seventh; AT+LONG=n by n lines; AT+BAD by +CME ERROR: 3; AT+FAIL by +CMS ERROR: 500; AT+MIXED by two lines with
 * +CEREG: 2 between them; AT+MUTE by nothing; every other command by ERROR. */
#include "fake.h"
#include <stdio.h>
#include <stdlib.h>
#include <string.h>

/* 27.010, 5.2.1.6: the polynomial x^8 + x^2 + x + 1 from the lowest bit on, over ones, complemented */
static uint8_t check(const uint8_t *octets, size_t length)
{
	unsigned r = 0xFF;

	for (size_t i = 0; i < length; i++)
		for (unsigned bit = 0; bit < 8; bit++) {
			unsigned low = (r ^ (octets[i] >> bit)) & 1;

			r = (r >> 1) ^ (low ? 0xE0u : 0u);
		}
	return (uint8_t)~r;
}

static void put_frame(struct fake *f, unsigned address, uint8_t control, const uint8_t *information, size_t length)
{
	uint8_t head[4] = { (uint8_t)(address | 1), control, (uint8_t)(length << 1 | 1), 0 };
	uint8_t *at = f->out + f->out_length;

	if (f->out_length + length + 6 > FAKE_OUT) {
		fprintf(stderr, "fake: too much to say\n");
		exit(1);
	}
	at[0] = 0xF9;
	memcpy(at + 1, head, 3);
	if (length)
		memcpy(at + 4, information, length);
	at[4 + length] = check(head, 3);
	at[5 + length] = 0xF9;
	f->out_length += length + 6;
}

static void put_text(struct fake *f, unsigned dlci, const char *text)
{
	size_t left = strlen(text);

	while (left) {
		size_t length = left < 31 ? left : 31;

		put_frame(f, dlci << 2, 0xEF, (const uint8_t *)text, length);
		text += length;
		left -= length;
	}
}

static void put_plain(struct fake *f, const char *text)
{
	memcpy(f->out + f->out_length, text, strlen(text));
	f->out_length += strlen(text);
}

void fake_reports(struct fake *f, uint8_t dlci, const char *line)
{
	char text[FAKE_LINE + 5];

	snprintf(text, sizeof text, "\r\n%s\r\n", line);
	put_text(f, dlci, text);
}

unsigned long fake_number(unsigned long x, unsigned dlci)
{
	return (x * 7919 + dlci * 104729 + 12345) % 1000003;
}

static void command(struct fake *f, unsigned dlci, const char *line)
{
	char answer[128];
	unsigned long x;

	f->commands++;
	if (sscanf(line, "AT+N=%lu", &x) == 1) {
		if (x % 7 == 0) {
			fake_reports(f, (uint8_t)dlci, "RING");
			f->rings++;
		}
		snprintf(answer, sizeof answer, "\r\n+N: %lu\r\n\r\nOK\r\n", fake_number(x, dlci));
		put_text(f, dlci, answer);
	} else if (sscanf(line, "AT+LONG=%lu", &x) == 1) {
		for (unsigned long i = 0; i < x; i++) {
			snprintf(answer, sizeof answer, "\r\n+LONG: %lu,0123456789012345678901234567890123456789\r\n", i);
			put_text(f, dlci, answer);
		}
		put_text(f, dlci, "\r\nOK\r\n");
	} else if (!strcmp(line, "AT+BAD"))
		put_text(f, dlci, "\r\n+CME ERROR: 3\r\n");
	else if (!strcmp(line, "AT+FAIL"))
		put_text(f, dlci, "\r\n+CMS ERROR: 500\r\n");
	else if (!strcmp(line, "AT+MIXED"))
		put_text(f, dlci, "\r\n+MIXED: 1\r\n\r\n+CEREG: 2\r\n\r\n+MIXED: 2\r\n\r\nOK\r\n");
	else if (strcmp(line, "AT+MUTE"))
		put_text(f, dlci, "\r\nERROR\r\n");
}

static void got_message(struct fake *f, const uint8_t *octets, size_t length)
{
	uint8_t answer[64];

	if (length < 2 || length > sizeof answer || !(octets[0] & 2))
		return;
	memcpy(answer, octets, length);
	answer[0] &= 0xFD;                      /* 5.4.6.3: C/R 0 for a response */
	put_frame(f, 0, 0xEF, answer, length);
	f->probes += octets[0] == 0x23;
	f->held += octets[0] == 0xE3 && length >= 4 && (octets[3] & 2);
	if (octets[0] == 0xC3) {                /* CLD */
		f->stops++;
		memset(f->is_open, 0, sizeof f->is_open);
		f->is_multiplexed = false;
	}
}

static void got(struct fake *f, unsigned dlci, uint8_t control, const uint8_t *information, size_t length)
{
	if (dlci >= FAKE_CONNECTIONS || f->is_mute)
		return;
	if (control == 0x3F || control == 0x53) {       /* SABM, DISC with P: UA with F */
		f->openings += control == 0x3F;
		f->is_open[dlci] = control == 0x3F;
		f->line_length[dlci] = 0;
		put_frame(f, dlci << 2 | 2, 0x73, NULL, 0);
	} else if (!f->is_open[dlci])
		put_frame(f, dlci << 2 | 2, 0x1F, NULL, 0);     /* DM */
	else if (dlci == 0)
		got_message(f, information, length);
	else
		for (size_t i = 0; i < length; i++)
			if (information[i] == '\r') {
				f->line[dlci][f->line_length[dlci]] = 0;
				f->line_length[dlci] = 0;
				command(f, dlci, f->line[dlci]);
			} else if (f->line_length[dlci] < FAKE_LINE - 1)
				f->line[dlci][f->line_length[dlci]++] = (char)information[i];
}

/* Reads a frame at the front, if it is whole, and says how many octets are done with. */
static size_t read_frame(struct fake *f, const uint8_t *octets, size_t length)
{
	size_t information, head = 4;

	if (octets[0] != 0xF9 || (length > 1 && octets[1] == 0xF9))
		return 1;
	if (length < 4)
		return 0;
	information = octets[3] >> 1;
	if (!(octets[3] & 1)) {
		if (length < 5)
			return 0;
		information |= (size_t)octets[4] << 7;
		head = 5;
	}
	if (length < head + information + 2)
		return 0;
	if (check(octets + 1, head - 1) != octets[head + information] || octets[head + information + 1] != 0xF9) {
		f->bad++;
		return 1;
	}
	got(f, octets[1] >> 2, octets[2], octets + head, information);
	return head + information + 1;          /* its flag may begin the next */
}

static size_t read_plain(struct fake *f)
{
	uint8_t *end = memchr(f->in, '\r', f->in_length), *at = f->in;

	if (!end)
		return 0;
	*end = 0;
	while (*at && *at != 'A')               /* V.250, 5.2.1: what comes before AT is passed over */
		at++;
	f->is_multiplexed = !strcmp((char *)at, "AT+CMUX=0");
	put_plain(f, f->is_multiplexed ? "AT+CMUX=0\r\r\nOK\r\n" : "\r\nERROR\r\n");
	return (size_t)(end - f->in) + 1;
}

void fake_hears(struct fake *f, const uint8_t *octets, size_t length)
{
	while (length) {
		size_t some = sizeof f->in - f->in_length < length ? sizeof f->in - f->in_length : length;
		size_t done;

		memcpy(f->in + f->in_length, octets, some);
		f->in_length += some;
		octets += some;
		length -= some;
		while (f->in_length && (done = f->is_multiplexed ? read_frame(f, f->in, f->in_length) : read_plain(f))) {
			f->in_length -= done;
			memmove(f->in, f->in + done, f->in_length);
		}
	}
}

size_t fake_says(struct fake *f, uint8_t *octets, size_t room)
{
	size_t some = f->out_length < room ? f->out_length : room;

	memcpy(octets, f->out, some);
	f->out_length -= some;
	memmove(f->out, f->out + some, f->out_length);
	return some;
}
