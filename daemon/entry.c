/* entry.c - brings a modem from plain commands into the multiplexer: octets in, octets out, no I/O. */
#include "entry.h"
#include "log.h"
#include <stdio.h>
#include <string.h>

enum { TRIES = 3, ANSWER = 1000, INIT_ANSWER = 30000, PAUSE = 300 };    /* milliseconds, but TRIES */
enum { FLAG = 0xF9, HEAD = 3, BITS = 10 };      /* address, control and check octet; an octet on the line */

static const char close_down[] = "\xF9\x03\xEF\x05\xC3\x01\xF2\xF9\r";

/* AT stands before the commands of --init, so that a modem that is left in the multiplexer gets none of them there. */
static unsigned last_step(const struct options *o)
{
	return o->inits ? o->inits + 1 : 0;
}

static const char *text_of(const struct options *o, unsigned step)
{
	if (step == last_step(o))
		return o->entry;
	return step == 0 ? "AT" : o->init[step - 1];
}

static bool is_init(const struct entry *e)
{
	return e->step > 0 && e->step < last_step(e->options);
}

static void put(struct entry *e, const char *text, size_t length)
{
	memcpy(e->out, text, length);
	e->out_length = length;
	e->flags = 0;
	e->length = 0;
}

static void send_text(struct entry *e, int64_t now)
{
	const char *text = text_of(e->options, e->step);

	put(e, text, strlen(text));
	e->out[e->out_length++] = '\r';
	e->until = now + (is_init(e) ? INIT_ANSWER : ANSWER);
	e->tries += e->step == 0;
}

void entry_begin(struct entry *e, const struct options *options, int64_t now)
{
	memset(e, 0, sizeof *e);
	e->options = options;
	send_text(e, now);
}

/* A command without its values, which may be secret. */
static int length_shown(const char *text)
{
	return (int)strcspn(text, "=");
}

/* The answer to the text under way is whole. */
static void answered(struct entry *e, bool ok, int64_t now)
{
	const char *text = text_of(e->options, e->step);

	if (!ok && e->is_behind_close_down && e->tries < TRIES) {       /* the modem may have read it as plain text */
		e->is_behind_close_down = false;
		send_text(e, now);
		return;
	}
	e->is_behind_close_down = false;
	if (e->step == last_step(e->options)) {
		e->state = ok ? ENTRY_DONE : ENTRY_REFUSED;
		return;
	}
	if (!ok)
		say(LOG_WARNING, "the modem answers %.*s by %s: it goes on without it", length_shown(text), text, e->line);
	e->step++;
	send_text(e, now);
}

/* Whether the line ends an answer; if so, *ok says how. */
static bool is_final(const char *line, bool *ok)
{
	*ok = !strcmp(line, "OK");
	return *ok || !strcmp(line, "ERROR") || !strncmp(line, "+CME ERROR:", 11) || !strncmp(line, "+CMS ERROR:", 11);
}

size_t entry_take(struct entry *e, const uint8_t *octets, size_t count, int64_t now)
{
	size_t at = 0;
	bool ok;

	while (at < count && e->state == ENTRY_GOES_ON) {
		char octet = (char)octets[at++];

		if (octet != '\r' && octet != '\n') {
			if (e->length < sizeof e->line - 1)
				e->line[e->length++] = octet;
			continue;
		}
		e->line[e->length] = 0;
		e->length = 0;
		if (!e->is_pausing && is_final(e->line, &ok))
			answered(e, ok, now);
	}
	return at;
}

/* The first text had no answer. */
static void try_again(struct entry *e, int64_t now)
{
	if (e->tries == TRIES) {
		e->state = ENTRY_SILENT;
		return;
	}
	put(e, close_down, sizeof close_down - 1);
	e->flags = e->options->n1 + HEAD;
	e->is_pausing = true;
	e->until = now + PAUSE + (int64_t)e->flags * BITS * 1000 / e->options->speed;
}

void entry_pass(struct entry *e, int64_t now)
{
	if (e->state != ENTRY_GOES_ON || now < e->until)
		return;
	if (e->is_pausing) {
		e->is_pausing = false;
		e->is_behind_close_down = true;
		send_text(e, now);
	} else if (e->step == 0)
		try_again(e, now);
	else
		e->state = ENTRY_SILENT;
}

size_t entry_output(struct entry *e, uint8_t *octets, size_t room)
{
	size_t flags = e->flags < room ? e->flags : room;
	size_t count = e->out_length < room - flags ? e->out_length : room - flags;

	memset(octets, FLAG, flags);
	e->flags -= (unsigned)flags;
	memcpy(octets + flags, e->out, count);
	memmove(e->out, e->out + count, e->out_length - count);
	e->out_length -= count;
	return flags + count;
}
