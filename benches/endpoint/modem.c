/* modem.c - the other end of a driver's line, of its own making: it opens what it is asked to open, sends MSC back, and answers each
 * command by the same lines. Each line goes into frames of its own, as modems send. */
#include "modem.h"
#include <string.h>

static uint8_t table[256];

static void make_table(void)
{
	for (unsigned octet = 0; octet < 256; octet++) {
		uint8_t sum = (uint8_t)octet;

		for (int bit = 0; bit < 8; bit++)
			sum = (uint8_t)(sum & 1 ? (sum >> 1) ^ 0xE0 : sum >> 1);
		table[octet] = sum;
	}
}

/* A frame from the modem (27.010, 5.2.1): of responses and information C/R is 0 or 1 as its caller says. */
static void put_frame(struct modem *m, unsigned dlci, unsigned cr, uint8_t control, const uint8_t *info, size_t length)
{
	uint8_t head[4], sum = 0xFF;
	size_t count = 0;

	head[count++] = (uint8_t)(dlci << 2 | cr << 1 | 1);
	head[count++] = control;
	if (length < 128) {
		head[count++] = (uint8_t)(length << 1 | 1);
	} else {
		head[count++] = (uint8_t)(length << 1);
		head[count++] = (uint8_t)(length >> 7);
	}
	for (size_t i = 0; i < count; i++)
		sum = table[sum ^ head[i]];
	m->out[m->length++] = 0xF9;
	memcpy(m->out + m->length, head, count);
	m->length += count;
	if (length)
		memcpy(m->out + m->length, info, length);
	m->length += length;
	m->out[m->length++] = (uint8_t)(0xFF - sum);
	m->out[m->length++] = 0xF9;
}

void modem_says(struct modem *m, unsigned dlci, const char *text)
{
	uint8_t line[MODEM_LINE];
	size_t length = 0, some;

	line[length++] = '\r', line[length++] = '\n';
	memcpy(line + length, text, strlen(text));
	length += strlen(text);
	line[length++] = '\r', line[length++] = '\n';
	for (size_t at = 0; at < length; at += some) {
		some = length - at < m->n1 ? length - at : m->n1;
		put_frame(m, dlci, 0, 0xEF, line + at, some);
	}
}

static void answer(struct modem *m, unsigned dlci)
{
	for (size_t i = 0; i < m->lines; i++)
		modem_says(m, dlci, m->line);
	modem_says(m, dlci, "OK");
	m->commands++;
}

/* A frame came: address, control, information. The driver's frames are sound, so its check octet isn't looked at. */
static void take(struct modem *m, const uint8_t *f, size_t length)
{
	unsigned dlci = f[0] >> 2;
	uint8_t control = f[1] & 0xEF;
	size_t head = f[2] & 1 ? 3 : 4;

	if (control == 0x2F) {
		static const uint8_t msc[] = { 0xE3, 5, 0, 0x8D };
		uint8_t said[4];

		put_frame(m, dlci, 1, 0x73, NULL, 0);
		memcpy(said, msc, sizeof msc);
		said[2] = (uint8_t)(dlci << 2 | 3);
		if (dlci)
			put_frame(m, 0, 0, 0xEF, said, sizeof said);
	} else if (control == 0x43) {
		put_frame(m, dlci, 1, 0x73, NULL, 0);
	} else if (dlci == 0 && (f[head] & 2)) {
		uint8_t said[64];
		size_t count = length - head - 1;

		memcpy(said, f + head, count);
		said[0] &= 0xFD;
		put_frame(m, 0, 0, 0xEF, said, count);
	} else if (dlci) {
		for (size_t i = head; i + 1 < length; i++)
			if (f[i] == '\r')
				answer(m, dlci);
	}
}

void modem_hears(struct modem *m, const uint8_t *octets, size_t length)
{
	if (!table[1])
		make_table();
	for (size_t i = 0; i < length; i++) {
		if (octets[i] != 0xF9 || (m->in_length && m->in_length < m->wanted)) {
			m->in[m->in_length++] = octets[i];
			if (m->in_length == 3 && octets[i] & 1)
				m->wanted = 4 + (octets[i] >> 1);
			else if (m->in_length == 4 && !(m->in[2] & 1))
				m->wanted = 5 + (m->in[2] >> 1 | (size_t)octets[i] << 7);
			else if (m->in_length < 3)
				m->wanted = 5;
		} else {
			if (m->in_length)
				take(m, m->in, m->in_length);
			m->in_length = m->wanted = 0;
		}
	}
}
