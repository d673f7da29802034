/* data.c - connections that carry data: a pseudo-terminal of raw octets for each. */
#define _GNU_SOURCE
#include "data.h"
#include "log.h"
#include "watch.h"
#include <errno.h>
#include <poll.h>
#include <stdlib.h>
#include <string.h>
#include <termios.h>
#include <unistd.h>

enum { PIECE = 4096, LONGEST_LEAVE = 30000, AGAIN = 100 };      /* octets; milliseconds */

void data_open(struct data *d, struct terminals *ts, struct modem *m, const struct options *o)
{
	*d = (struct data){ .count = o->lanes, .terminals = ts, .modem = m };
	for (unsigned i = 0; i < d->count; i++)
		d->all[i] = (struct lane){ .dlci = o->data[i], .terminal = &ts->data[i] };
}

void data_close(struct data *d)
{
	for (unsigned i = 0; i < d->count; i++)
		free(d->all[i].in);
}

static bool is_dialled(const struct data *d, const struct lane *l)
{
	return d->modem->options->carries[l->dlci] == DATA_BEHIND_CONNECT;
}

/* ---- From a program to the modem ---- */

/* Reads what a program wrote, behind what was read; false where there is nothing. */
static bool read_program(struct data *d, struct lane *l)
{
	if (l->in_at == l->in_length)
		l->in_at = l->in_length = 0;
	if (l->in_room - l->in_length < PIECE) {
		uint8_t *more = realloc(l->in, l->in_length + PIECE);

		if (!more)
			return false;
		l->in = more;
		l->in_room = l->in_length + PIECE;
	}
	ssize_t n = read(l->terminal->ours, l->in + l->in_length, PIECE);
	if (n < 0 && errno == EIO) {
		terminals_renew(d->terminals, l->terminal, "was hung up");
		l->terminal->has_left = true;
	}
	if (n > 0)
		l->in_length += (size_t)n;
	return n > 0;
}

/* Gives the relay what it takes of what a program wrote; false where it takes nothing. */
static bool give(struct data *d, struct lane *l)
{
	size_t taken = 0;

	if (l->in_at == l->in_length
	    || cimbaloty_data_give_at(&d->modem->relay, (uint8_t)l->dlci, l->in + l->in_at, l->in_length - l->in_at, &taken) != CIMBALOTY_DATA_OK)
		return false;
	l->in_at += taken;
	l->went += taken;
	return taken > 0;
}

/* What a program wrote and the relay didn't take is dropped. */
static void drop_rest(struct lane *l, const char *why)
{
	if (l->in_at < l->in_length)
		say(LOG_WARNING, "%s: %zu octets that a program wrote weren't sent: %s", l->terminal->path, l->in_length - l->in_at, why);
	free(l->in);
	l->in = NULL;
	l->in_at = l->in_length = l->in_room = 0;
}

/* ---- From the modem to a program ---- */

/* Takes what came, for the terminal or to be dropped, as far as the terminal has room, or all; gives whether the lane is over and all
 * was taken. Without a relay it is. */
static bool take(struct data *d, struct lane *l, bool is_dropped, bool all)
{
	struct cimbaloty_data_got got = { 0, false };
	uint8_t room[PIECE];

	while (all || is_dropped || terminal_waits(l->terminal) == 0) {
		if (cimbaloty_data_read_at(&d->modem->relay, (uint8_t)l->dlci, room, sizeof room, &got) != CIMBALOTY_DATA_OK)
			return true;
		if (got.count == 0)
			break;
		l->came += got.count;
		l->has_carried = true;
		if (is_dropped)
			continue;
		terminal_put_raw(l->terminal, room, got.count);
		terminal_write(l->terminal);
	}
	return got.is_over;
}

/* The lane is over: the next one begins, of the next opening. */
static void begin_next(struct data *d, struct lane *l)
{
	if (d->modem->stage == MODEM_UP)
		modem_begin_lane(d->modem, l->dlci);
	l->has_carried = false;
}

/* ---- What there is to do in each state ---- */

static void serve(struct data *d, struct lane *l)
{
	bool has_ended = !l->carries && (l->has_carried || d->modem->stage == MODEM_LEFT);
	bool is_dropped = l->terminal->opens == 0 && (has_ended || !is_dialled(d, l));
	bool is_over = take(d, l, is_dropped, has_ended);

	if (!is_over)
		return;
	if (l->has_carried && l->terminal->opens > 0) {
		bool is_open = cimbaloty_state(&d->modem->c, (uint8_t)l->dlci) == CIMBALOTY_IS_OPENED;

		say(LOG_NOTICE, "%s: connection %u %s", l->terminal->path, l->dlci, is_open ? "lost its carrier" : "was closed");
		drop_rest(l, is_open ? "the carrier was lost" : "the connection was closed");
		l->state = LANE_HANGS_UP;
	}
	begin_next(d, l);
}

/* Whether a program that has the terminal open has read all that was written there. */
static bool is_read(const struct terminal *t)
{
	struct pollfd p = { t->theirs, POLLIN, 0 };

	return terminal_waits(t) == 0 && poll(&p, 1, 0) == 0;
}

static void hang_up(struct data *d, struct lane *l)
{
	if (!is_read(l->terminal))
		return;
	terminals_renew(d->terminals, l->terminal, "is hung up, as its data has ended");
	l->state = LANE_SERVES;
}

static void leave(struct data *d, struct lane *l, int64_t now)
{
	size_t to_go = 0;

	take(d, l, true, true);
	cimbaloty_data_to_go_at(&d->modem->relay, (uint8_t)l->dlci, &to_go);
	if (l->carries && now < l->until && (l->in_at < l->in_length || to_go > 0))
		return;
	drop_rest(l, l->carries ? "the modem doesn't take them" : "the connection was closed");
	l->until = now + AGAIN;
	if (watch_hang_up(d->modem, l->dlci))
		l->state = LANE_CLOSES;
}

static void close_lane(struct data *d, struct lane *l)
{
	if (!take(d, l, true, true))
		return;
	begin_next(d, l);
	l->state = LANE_SERVES;
}

static bool turn(struct data *d, struct lane *l, int64_t now)
{
	bool gave = false;

	l->carries = modem_carries_data(d->modem, l->dlci);
	l->has_carried |= l->carries;
	terminal_write(l->terminal);
	while (l->carries && (l->state == LANE_SERVES || l->state == LANE_LEAVES)) {
		if (l->state == LANE_SERVES && l->in_at == l->in_length)
			read_program(d, l);
		if (!give(d, l))
			break;
		gave = true;
	}
	if (l->state == LANE_SERVES)
		serve(d, l);
	else if (l->state == LANE_LEAVES)
		leave(d, l, now);
	else if (l->state == LANE_CLOSES)
		close_lane(d, l);
	if (l->state == LANE_HANGS_UP)
		hang_up(d, l);
	return gave;
}

bool data_turn(struct data *d, int64_t now)
{
	bool gave = false;

	for (unsigned i = 0; i < d->count; i++)
		gave |= turn(d, &d->all[i], now);
	return gave;
}

/* ---- Programs that leave ---- */

/* The last program has left. What it wrote is read at once, so that it is known whose it is; while what another one wrote goes, it is
 * dropped. A program that wrote or read before that is hung up. */
static void see_off(struct data *d, struct lane *l, int64_t now)
{
	struct terminal *t = l->terminal;
	bool leaves = l->state == LANE_SERVES && l->has_carried;

	t->out_at = t->out_length = 0;
	while (leaves && read_program(d, l))
		;
	if (!leaves)
		tcflush(t->ours, TCIFLUSH);
	terminals_look(d->terminals);
	if (t->wrote_behind || t->read_behind || !terminal_reset(t))
		terminals_renew(d->terminals, t, "is hung up: a program came as another one left");
	t->has_left = t->wrote_before = t->wrote_behind = t->read_behind = false;
	if (l->state == LANE_HANGS_UP)
		l->state = LANE_SERVES;
	if (!leaves)
		return;
	l->state = LANE_LEAVES;
	l->until = now + LONGEST_LEAVE;
}

void data_look(struct data *d, int64_t now)
{
	for (unsigned i = 0; i < d->count; i++)
		if (d->all[i].terminal->has_left)
			see_off(d, &d->all[i], now);
}

/* ---- For the loop ---- */

short data_events(const struct lane *l)
{
	bool is_wanted = l->state == LANE_SERVES && l->carries && l->in_at == l->in_length;

	return (short)((is_wanted ? POLLIN : 0) | (terminal_waits(l->terminal) ? POLLOUT : 0));
}

int64_t data_deadline(const struct data *d)
{
	int64_t due = INT64_MAX;

	for (unsigned i = 0; i < d->count; i++)
		if (d->all[i].state == LANE_LEAVES && d->all[i].until < due)
			due = d->all[i].until;
	return due;
}
