/* pair.c - a driver and the fake modem at the other end of its line. */
#include "pair.h"

void pump(struct pair *p)
{
	uint8_t octets[4096];
	size_t count, taken, moved;

	do {
		moved = 0;
		while ((count = cimbaloty_output(&p->c, octets, p->out)) > 0) {
			fake_hears(&p->f, octets, count);
			moved += count;
		}
		count = fake_says(&p->f, octets, p->in);
		for (size_t at = 0; at < count; at += taken) {
			uint8_t said = cimbaloty_input(&p->c, octets + at, count - at, &taken);

			CHECK(said == CIMBALOTY_OK || said == CIMBALOTY_NO_MEMORY || said == CIMBALOTY_OUTPUT_FIRST);
			CHECK(taken <= count - at && (said != CIMBALOTY_OK || taken == count - at));
			p->refused += said == CIMBALOTY_NO_MEMORY;
			if (said == CIMBALOTY_OUTPUT_FIRST && taken < count - at) {
				uint8_t more[512];
				size_t some = cimbaloty_output(&p->c, more, sizeof more);

				CHECK(some > 0);
				fake_hears(&p->f, more, some);
			}
		}
		moved += count;
	} while (moved);
}

struct pair *pair_of(size_t out, size_t in)
{
	struct pair *p = calloc(1, sizeof *p);

	CHECK(p);
	p->out = out;
	p->in = in;
	p->f.is_multiplexed = true;
	return p;
}

struct pair *begin(size_t out, size_t in)
{
	struct pair *p = pair_of(out, in);
	uint64_t n;

	CHECK(cimbaloty_new(&p->c, 31, CIMBALOTY_ALL_KINDS, 1) == CIMBALOTY_OK);
	CHECK(cimbaloty_open(&p->c, 0, &n) == CIMBALOTY_OK && n == 1);
	pump(p);
	return p;
}

void end(struct pair *p)
{
	CHECK(p->f.bad == 0);
	cimbaloty_free(&p->c);
	free(p);
}

void told(struct pair *p, uint64_t number, uint8_t answer, char *text, size_t room)
{
	struct cimbaloty_outcome o;

	CHECK(cimbaloty_poll_outcome(&p->c, &o, text, room - 1) == CIMBALOTY_OK);
	CHECK(o.number == number && o.answer == answer);
	text[o.length] = 0;
}

uint64_t asked(struct pair *p, uint8_t dlci, const char *line)
{
	uint64_t n = 0;

	CHECK(cimbaloty_command(&p->c, dlci, line, strlen(line), &n) == CIMBALOTY_OK);
	return n;
}

void opened(struct pair *p, uint8_t dlci, uint64_t number)
{
	uint64_t n;
	char text[8];

	CHECK(cimbaloty_open(&p->c, dlci, &n) == CIMBALOTY_OK && n == number);
	pump(p);
	told(p, number, CIMBALOTY_OPENED, text, sizeof text);
	CHECK(cimbaloty_state(&p->c, dlci) == CIMBALOTY_IS_OPENED);
}
