/* floor.c - the least that a client costs: the calls of cimbaloty.h that commands.c makes, written by hand in C for them alone. It opens
 * connections, sends one command after the other on each, reads lines, tells echoes, reports and final codes apart, and keeps each
 * answer as one text. It knows no loss of the line, no ticks, no closing, no dialects and no want of memory, and doesn't count what it
 * sends. A frame that isn't sound is skipped. */
#include "cimbaloty.h"
#include <stdlib.h>
#include <string.h>

enum { FLAG = 0xF9, SABM = 0x3F, UA = 0x73, UIH = 0xEF, CHANNELS = 62, AHEAD = 128, COMMAND = 64, LINE = 512, OUT = 1 << 16, FRAME = 32776 };

struct asked {
	uint64_t number;
	size_t length;
	uint8_t text[COMMAND];
};

struct channel {
	bool opening, echo;
	uint64_t opened_by;
	struct asked asked[AHEAD];
	size_t first, count;
	uint8_t line[LINE];
	size_t length; /* of the unfinished line */
	uint8_t *text; /* the answer so far */
	size_t used, room, lines;
};

struct told {
	struct cimbaloty_outcome head;
	uint8_t *text;
};

struct client {
	uint16_t n1;
	uint64_t next;
	uint8_t out[OUT];
	size_t out_from, out_to;
	uint8_t frame[FRAME]; /* a frame of which only the first octets came */
	size_t length;
	struct told told[AHEAD * CHANNELS];
	size_t first, count;
	struct channel channels[CHANNELS];
};

static uint8_t table[256];

static void make_table(void)
{
	for (unsigned octet = 0; octet < 256; octet++) {
		uint8_t sum = (uint8_t)octet;

		for (int bit = 0; bit < 8; bit++)
			sum = (uint8_t)(sum & 1 ? (sum >> 1) ^ 0xE0 : sum >> 1);
		table[octet] = sum;
	}
}

/* ---- What goes out -------------------------------------------------------------------------------- */

static void put_frame(struct client *c, unsigned dlci, unsigned cr, uint8_t control, const uint8_t *info, size_t length)
{
	uint8_t *at = c->out + c->out_to, head[3] = { (uint8_t)(dlci << 2 | cr << 1 | 1), control, (uint8_t)(length << 1 | 1) };

	*at++ = FLAG;
	memcpy(at, head, 3);
	memcpy(at += 3, info, length);
	at += length;
	*at++ = (uint8_t)(0xFF - table[table[table[0xFF ^ head[0]] ^ head[1]] ^ head[2]]);
	*at++ = FLAG;
	c->out_to = (size_t)(at - c->out);
}

static void send_first(struct client *c, unsigned dlci)
{
	struct channel *h = c->channels + dlci;
	struct asked *a = h->asked + h->first;

	for (size_t at = 0, some; at < a->length; at += some) {
		some = a->length - at < c->n1 ? a->length - at : c->n1;
		put_frame(c, dlci, 1, UIH, a->text + at, some);
	}
	h->echo = true;
}

/* ---- What comes in -------------------------------------------------------------------------------- */

static void tell(struct client *c, uint64_t number, uint8_t answer, struct channel *h)
{
	struct told *t = c->told + (c->first + c->count++) % (AHEAD * CHANNELS);

	t->head = (struct cimbaloty_outcome){ .number = number, .length = h ? h->used : 0, .lines = h ? h->lines : 0, .answer = answer };
	t->text = h ? h->text : NULL;
}

static bool begins(const uint8_t *line, size_t length, const char *text, size_t count)
{
	return length >= count && !memcmp(line, text, count);
}

static bool is_final(const uint8_t *line, size_t length)
{
	return (length == 2 && begins(line, length, "OK", 2)) || (length == 5 && begins(line, length, "ERROR", 5))
		|| begins(line, length, "+CME ERROR:", 11);
}

static bool is_report(const uint8_t *line, size_t length)
{
	return (length == 4 && begins(line, length, "RING", 4)) || begins(line, length, "+CRING:", 7) || begins(line, length, "+CREG:", 6)
		|| begins(line, length, "+CGREG:", 7) || begins(line, length, "+CGEV:", 6) || begins(line, length, "+CIEV:", 6);
}

static void keep(struct channel *h, const uint8_t *line, size_t length)
{
	if (h->room - h->used < length + 1)
		h->text = realloc(h->text, h->room = 2 * (h->used + length + 1) + 32);
	memcpy(h->text + h->used, line, length);
	h->used += length;
	h->text[h->used++] = '\n';
	h->lines++;
}

static void take_line(struct client *c, unsigned dlci, const uint8_t *line, size_t length)
{
	struct channel *h = c->channels + dlci;
	struct asked *a = h->asked + h->first;

	if (!h->count || is_report(line, length))
		return;
	if (h->echo && length + 1 == a->length && !memcmp(line, a->text, length)) {
		h->echo = false;
		return;
	}
	h->echo = false;
	keep(h, line, length);
	if (!is_final(line, length))
		return;
	tell(c, a->number, CIMBALOTY_DONE, h);
	h->text = NULL;
	h->used = h->room = h->lines = 0;
	h->first = (h->first + 1) % AHEAD;
	if (--h->count)
		send_first(c, dlci);
}

static void take_octets(struct client *c, unsigned dlci, const uint8_t *octets, size_t length)
{
	struct channel *h = c->channels + dlci;
	const uint8_t *end = octets + length;

	while (octets < end) {
		const uint8_t *at = octets;

		while (at < end && *at != '\r' && *at != '\n')
			at++;
		size_t some = (size_t)(at - octets);

		if (at == end || h->length) {
			size_t fits = some < LINE - h->length ? some : LINE - h->length;

			memcpy(h->line + h->length, octets, fits);
			h->length += fits;
		}
		if (at == end)
			return;
		if (h->length) {
			take_line(c, dlci, h->line, h->length);
			h->length = 0;
		} else if (some) {
			take_line(c, dlci, octets, some < LINE ? some : LINE);
		}
		octets = at + 1;
	}
}

static void take_frame(struct client *c, unsigned dlci, uint8_t control, const uint8_t *info, size_t length)
{
	struct channel *h = c->channels + dlci;

	if (control == UIH && dlci) {
		take_octets(c, dlci, info, length);
	} else if (control == UIH && length && info[0] & 2) {
		uint8_t said[127];

		memcpy(said, info, length = length < 127 ? length : 127);
		said[0] &= 0xFD;
		put_frame(c, 0, 1, UIH, said, length);
	} else if (control == UA && h->opening) {
		h->opening = false;
		tell(c, h->opened_by, CIMBALOTY_OPENED, NULL);
	}
}

/* Reads one frame at the front: how many octets it has with the flag before it, or 0 where more have to come. */
static size_t read_frame(struct client *c, const uint8_t *octets, size_t length)
{
	if (length < 6)
		return length && octets[0] != FLAG;
	if (octets[0] != FLAG || octets[1] == FLAG)
		return 1;
	size_t head = octets[3] & 1 ? 4 : 5, size = (size_t)(octets[3] >> 1) | (head == 5 ? (size_t)octets[4] << 7 : 0);
	uint8_t sum = table[table[table[0xFF ^ octets[1]] ^ octets[2]] ^ octets[3]];

	if (size > c->n1)
		return 1;
	if (length < head + size + 2)
		return 0;
	sum = head == 5 ? table[sum ^ octets[4]] : sum;
	if (octets[head + size] != 0xFF - sum || octets[head + size + 1] != FLAG || octets[1] >> 2 >= CHANNELS)
		return 1;
	take_frame(c, octets[1] >> 2, octets[2], octets + head, size);
	return head + size + 1;
}

/* Reads all frames that are whole, and says how many octets that were. */
static size_t read_frames(struct client *c, const uint8_t *octets, size_t length)
{
	size_t at = 0, some;

	while ((some = read_frame(c, octets + at, length - at)))
		at += some;
	return at;
}

/* ---- The calls ------------------------------------------------------------------------------------ */

uint8_t cimbaloty_new(struct cimbaloty *d, uint16_t n1, uint8_t kinds, uint64_t first)
{
	static struct client one;
	struct client *c = &one;

	(void)kinds;
	memset(c, 0, sizeof *c);
	make_table();
	c->n1 = n1, c->next = first;
	d->at = c, d->is_open = true;
	return CIMBALOTY_OK;
}

void cimbaloty_free(struct cimbaloty *d)
{
	d->is_open = false;
}

uint8_t cimbaloty_open(struct cimbaloty *d, uint8_t dlci, uint64_t *number)
{
	struct client *c = d->at;

	c->channels[dlci].opening = true;
	*number = c->channels[dlci].opened_by = c->next++;
	put_frame(c, dlci, 1, SABM, (const uint8_t *)"", 0);
	return CIMBALOTY_OK;
}

uint8_t cimbaloty_command_at(struct cimbaloty *d, uint8_t dlci, const uint8_t *text, size_t length, uint64_t *number)
{
	struct client *c = d->at;
	struct channel *h = c->channels + dlci;

	if (h->count == AHEAD || length >= COMMAND)
		return CIMBALOTY_FULL;
	struct asked *a = h->asked + (h->first + h->count) % AHEAD;

	*number = a->number = c->next++;
	memcpy(a->text, text, length);
	a->text[length] = '\r';
	a->length = length + 1;
	if (!h->count++)
		send_first(c, dlci);
	return CIMBALOTY_OK;
}

uint8_t cimbaloty_input_at(struct cimbaloty *d, const uint8_t *octets, size_t length, size_t *taken)
{
	struct client *c = d->at;

	*taken = length;
	if (!c->length) {
		size_t read = read_frames(c, octets, length);

		octets += read, length -= read;
	}
	memcpy(c->frame + c->length, octets, length);
	c->length += length;
	size_t read = read_frames(c, c->frame, c->length);

	if (read)
		memmove(c->frame, c->frame + read, c->length -= read);
	return CIMBALOTY_OK;
}

size_t cimbaloty_output_at(struct cimbaloty *d, uint8_t *room, size_t length)
{
	struct client *c = d->at;
	size_t some = c->out_to - c->out_from < length ? c->out_to - c->out_from : length;

	memcpy(room, c->out + c->out_from, some);
	c->out_from += some;
	if (c->out_from == c->out_to)
		c->out_from = c->out_to = 0;
	return some;
}

uint8_t cimbaloty_poll_outcome_at(struct cimbaloty *d, struct cimbaloty_outcome *head, uint8_t *text, size_t room)
{
	struct client *c = d->at;
	struct told *t = c->told + c->first;

	if (!c->count || t->head.length > room)
		return CIMBALOTY_NOTHING;
	*head = t->head;
	if (t->text) {
		memcpy(text, t->text, t->head.length);
		free(t->text);
	}
	c->first = (c->first + 1) % (AHEAD * CHANNELS);
	c->count--;
	return CIMBALOTY_OK;
}
