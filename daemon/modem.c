/* modem.c - the modem: its line, the entry, and the driver. */
#define _GNU_SOURCE
#include "modem.h"
#include "log.h"
#include "tty.h"
#include "watch.h"
#include <errno.h>
#include <stdarg.h>
#include <stdio.h>
#include <stdlib.h>
#include <string.h>
#include <poll.h>
#include <sys/ioctl.h>
#include <termios.h>
#include <unistd.h>

enum { FIRST_WAIT = 200, LONGEST_WAIT = 10000, STEADY = 10000, AGAIN = 1000 };  /* milliseconds */

/* Data is written while fewer octets than these wait in the terminal's own queue: a command that is asked then waits for these and one
 * frame of data. Once fewer than 256 wait, poll(2) says that there is room. */
enum { MOST_QUEUED = 512 };

/* ---- The line ---- */

static void put_off(struct modem *m, int64_t now)
{
	m->retry_at = now + m->wait;
	m->wait = m->wait * 2 < LONGEST_WAIT ? m->wait * 2 : LONGEST_WAIT;
}

/* The line isn't opened or the modem isn't entered: it is tried again later. The same reason is said once. */
static void give_up(struct modem *m, int64_t now, const char *form, ...) __attribute__((format(printf, 3, 4)));
static void give_up(struct modem *m, int64_t now, const char *form, ...)
{
	char why[sizeof m->told];
	va_list values;

	va_start(values, form);
	vsnprintf(why, sizeof why, form, values);
	va_end(values);
	say(strcmp(why, m->told) ? LOG_WARNING : LOG_DEBUG, "%s: %s; it is tried again", m->options->tty, why);
	memcpy(m->told, why, sizeof why);
	if (m->fd >= 0)
		tty_close(m->fd);
	m->fd = -1;
	m->stop = 0;
	m->stage = MODEM_GONE;
	put_off(m, now);
}

static const char *reason_of(int number)
{
	switch (number) {
	case EBUSY: return "another program drives it: end that one first";
	case ENOTTY: return "it is no terminal: give the modem's serial device";
	default: return strerror(number);
	}
}

/* Begins to enter the modem on the line that was just opened, or puts it off where it couldn't be, as errno says. */
static void begin_line(struct modem *m, int fd, int64_t now)
{
	const struct options *o = m->options;

	m->fd = fd;
	if (fd < 0) {
		give_up(m, now, "%s", reason_of(errno));
		return;
	}
	tcflush(m->fd, TCIFLUSH);
	m->in_at = m->in_length = m->out_at = m->out_length = m->given_at = m->given_length = 0;
	m->is_blocked = m->is_queue_long = false;
	cimbaloty_frames_begin(&m->came, (uint16_t)o->n1);
	cimbaloty_frames_begin(&m->went, (uint16_t)o->n1);
	entry_begin(&m->entry, o, now);
	m->stage = MODEM_ENTERING;
}

/* Reads what came, if all before it was taken; false where the line has ended. */
static bool read_line(struct modem *m)
{
	if (m->in_at < m->in_length)
		return true;
	ssize_t n = read(m->fd, m->in, sizeof m->in);
	m->in_at = 0;
	m->in_length = n > 0 ? (size_t)n : 0;
	return n > 0 || (n < 0 && (errno == EAGAIN || errno == EINTR));
}

/* How many octets the terminal took and hasn't sent; 0 where it doesn't tell, as a pseudo-terminal. */
static size_t queued(const struct modem *m)
{
	int count;

	return ioctl(m->fd, TIOCOUTQ, &count) == 0 && count > 0 ? (size_t)count : 0;
}

/* Writes what waits; false where the line has ended. */
static bool write_line(struct modem *m)
{
	while (m->out_at < m->out_length) {
		ssize_t n = write(m->fd, m->out + m->out_at, m->out_length - m->out_at);

		if (n <= 0)
			return n < 0 && (errno == EAGAIN || errno == EINTR);
		m->out_at += (size_t)n;
	}
	m->out_at = m->out_length = 0;
	return true;
}

/* ---- The entry ---- */

static bool has_relay(const struct options *o)
{
	return o->lanes + o->asking > 0;
}

void modem_begin_lane(struct modem *m, unsigned dlci)
{
	const struct options *o = m->options;
	uint8_t how = o->carries[dlci] == DATA_BEHIND_CONNECT ? CIMBALOTY_DATA_BY_CONNECT : CIMBALOTY_DATA_AT_ONCE;

	cimbaloty_data_begin(&m->relay, (uint8_t)dlci, how, o->carrier[dlci] ? CIMBALOTY_DATA_UNTIL_CARRIER_LOSS : CIMBALOTY_DATA_UNTIL_CLOSE);
}

/* A relay, with a lane on each connection that is to carry data; none where none carries more than commands. False where there is no
 * memory. */
static bool begin_relay(struct modem *m)
{
	const struct options *o = m->options;
	uint8_t all[LANES];

	if (!has_relay(o))
		return true;
	memcpy(all, o->data, o->lanes);
	memcpy(all + o->lanes, o->texts, o->asking);
	if (cimbaloty_data_new_at(&m->relay, (uint16_t)o->n1, all, o->lanes + o->asking) != CIMBALOTY_DATA_OK)
		return false;
	for (unsigned i = 0; i < o->lanes; i++)
		modem_begin_lane(m, o->data[i]);
	return true;
}

static void be_up(struct modem *m, int64_t now)
{
	if (!begin_relay(m)) {
		give_up(m, now, "no memory");
		return;
	}
	if (cimbaloty_new_with_dialect(&m->c, m->codes, (uint16_t)m->options->n1, CIMBALOTY_ALL_KINDS, CIMBALOTY_ALL_OWN, m->last + 1) != CIMBALOTY_OK) {
		cimbaloty_data_free(&m->relay);
		give_up(m, now, "no memory");
		return;
	}
	m->stage = MODEM_UP;
	m->stop = 0;
	m->up_at = m->heard_at = now;
	m->said_longer = false;
	m->told[0] = 0;
	m->entries++;
	say(LOG_NOTICE, "%s is in the multiplexer", m->options->tty);
	watch_begin(m, now);
}

static void enter(struct modem *m, int64_t now, bool can_read)
{
	struct entry *e = &m->entry;

	if (can_read && !read_line(m)) {
		give_up(m, now, "the line hung up before the modem was entered");
		return;
	}
	m->in_at += entry_take(e, m->in + m->in_at, m->in_length - m->in_at, now);
	entry_pass(e, now);
	if (e->state == ENTRY_DONE)
		be_up(m, now);
	else if (e->state == ENTRY_REFUSED)
		give_up(m, now, "the modem answers %s by %s: see --entry and --init", m->options->entry, e->line);
	else if (e->state == ENTRY_SILENT)
		give_up(m, now, "the modem doesn't answer: is it on, and are --speed and --rtscts right");
}

/* ---- The driver ---- */

/* Counts the frames in what the driver took. */
static void count(struct modem *m, const uint8_t *octets, size_t length, int64_t now)
{
	uint64_t before = m->came.whole;

	cimbaloty_frames_take(&m->came, octets, length);
	if (m->came.whole != before)
		m->heard_at = now;
	if (m->came.longer_on && !m->said_longer) {
		say(LOG_WARNING, "a frame of %u octets came, and N1 is %u: such frames are dropped, and answers that have one are told as ERROR; see --n1 and --entry",
		    m->came.longest, m->options->n1);
		m->said_longer = true;
	}
	m->cut_on |= m->came.longer_on;
	m->came.longer_on = 0;
}

/* Hands what came to the driver. */
static void take_in(struct modem *m, int64_t now)
{
	size_t taken;

	if (m->in_at == m->in_length)
		return;
	cimbaloty_input(&m->c, m->in + m->in_at, m->in_length - m->in_at, &taken);
	count(m, m->in + m->in_at, taken, now);
	m->in_at += taken;
}

/* Hands the driver what waits for it at the relay; false where it doesn't take all. */
static bool hand_over(struct modem *m)
{
	uint8_t room[1024];
	size_t length, taken;

	while ((length = cimbaloty_data_for_driver_at(&m->relay, room, sizeof room)) > 0) {
		cimbaloty_input(&m->c, room, length, &taken);
		cimbaloty_data_handed(&m->relay, taken);
		if (taken < length)
			return false;
	}
	return true;
}

/* Hands what came to the relay, and what that has for the driver to the driver. */
static void take_in_by_relay(struct modem *m, int64_t now)
{
	size_t taken;

	m->is_blocked = !hand_over(m);
	if (m->is_blocked)
		return;
	m->is_blocked = cimbaloty_data_from_line_at(&m->relay, m->in + m->in_at, m->in_length - m->in_at, &taken) != CIMBALOTY_DATA_OK;
	count(m, m->in + m->in_at, taken, now);
	m->in_at += taken;
	if (!hand_over(m))
		m->is_blocked = true;
}

/* Takes octets of the relay for the line, at most one frame; false where it has none, or there is no room. */
static bool put_out(struct modem *m)
{
	size_t room = sizeof m->out - m->out_length, longest = m->options->n1 + 7;
	size_t length = cimbaloty_data_to_line_at(&m->relay, m->out + m->out_length, room < longest ? room : longest);

	m->out_length += length;
	return length > 0 && m->out_length < sizeof m->out;
}

/* Takes data for the line, while the terminal's queue is short. */
static void put_data_out(struct modem *m)
{
	size_t before = queued(m);

	do
		m->is_queue_long = before + m->out_length >= MOST_QUEUED;
	while (!m->is_queue_long && put_out(m));
}

/* Takes octets for the line: first all that the driver has, and data behind them. */
static void fill_out_by_relay(struct modem *m)
{
	size_t taken;

	m->is_queue_long = false;
	for (;;) {
		if (m->given_at == m->given_length) {
			m->given_at = 0;
			m->given_length = cimbaloty_output(&m->c, m->given, sizeof m->given);
		}
		if (m->given_length == 0)
			break;
		taken = cimbaloty_data_from_driver_at(&m->relay, m->given + m->given_at, m->given_length - m->given_at);
		m->given_at += taken;
		if (taken == 0 && !put_out(m))
			return;
	}
	put_data_out(m);
}

static void fill_out(struct modem *m)
{
	if (has_relay(m->options))
		fill_out_by_relay(m);
	else
		m->out_length = cimbaloty_output(&m->c, m->out, sizeof m->out);
	cimbaloty_frames_take(&m->went, m->out, m->out_length);
}

/* Hands what came to the driver, and what it gives to the line; false where the line has ended. */
static bool exchange(struct modem *m, int64_t now)
{
	for (;;) {
		if (has_relay(m->options))
			take_in_by_relay(m, now);
		else
			take_in(m, now);
		if (m->out_length == 0)
			fill_out(m);
		if (m->out_length == 0)
			return true;
		if (!write_line(m))
			return false;
		if (m->out_length)
			return true;
	}
}

void modem_end_line(struct modem *m, int64_t now)
{
	if (m->stage != MODEM_UP)
		return;
	m->stage = MODEM_LEFT;
	cimbaloty_line_lost(&m->c);
	cimbaloty_data_lost(&m->relay);
	tty_close(m->fd);
	m->fd = -1;
	m->retry_at = now;
}

void modem_lose(struct modem *m, int64_t now, const char *why)
{
	if (m->stage != MODEM_UP)
		return;
	say(LOG_WARNING, "%s is lost: %s", m->options->tty, why);
	m->losses++;
	if (now - m->up_at >= STEADY)
		m->wait = FIRST_WAIT;
	modem_end_line(m, now);
	put_off(m, now);
}

void modem_settle(struct modem *m, int64_t now)
{
	struct cimbaloty_outcome o;
	struct cimbaloty_line u;

	if (m->stage != MODEM_LEFT || cimbaloty_line_lost(&m->c) == CIMBALOTY_NO_MEMORY
	    || cimbaloty_peek_outcome(&m->c, &o) != CIMBALOTY_NOTHING || cimbaloty_peek_line(&m->c, &u) != CIMBALOTY_NOTHING)
		return;
	cimbaloty_free(&m->c);
	cimbaloty_data_free(&m->relay);
	m->stage = MODEM_GONE;
	m->commands = 0;
	if (m->is_to_end)
		m->retry_at = INT64_MAX;
	else if (m->retry_at < now)
		m->retry_at = now;
}

/* ---- From outside ---- */

bool modem_begin(struct modem *m, const struct options *o, struct cimbaloty_dialect *codes, int64_t now)
{
	int fd = tty_open(o->tty, o->speed, o->rtscts);

	*m = (struct modem){ .options = o, .codes = codes, .fd = -1, .wait = FIRST_WAIT };
	if (fd < 0 && (errno == EBUSY || errno == ENOTTY)) {
		say(LOG_ERR, "%s: %s", o->tty, reason_of(errno));
		return false;
	}
	begin_line(m, fd, now);
	return true;
}

void modem_turn(struct modem *m, int64_t now, bool can_read)
{
	if (m->stage == MODEM_GONE && now >= m->retry_at && !m->is_to_end)
		begin_line(m, tty_open(m->options->tty, m->options->speed, m->options->rtscts), now);
	else if (m->stage == MODEM_ENTERING)
		enter(m, now, can_read);
	if (m->stage != MODEM_UP)
		return;
	if ((can_read && !read_line(m)) || !exchange(m, now))
		modem_lose(m, now, "the line hung up");
	else
		watch_turn(m, now);
}

void modem_send(struct modem *m, int64_t now)
{
	if (m->stage == MODEM_UP && !exchange(m, now))
		modem_lose(m, now, "the line hung up");
	if (m->stage != MODEM_ENTERING)
		return;
	while (m->out_length || (m->out_length = entry_output(&m->entry, m->out, sizeof m->out)) > 0) {
		if (!write_line(m))
			give_up(m, now, "the line hung up before the modem was entered");
		if (m->out_length || m->stage != MODEM_ENTERING)
			return;
	}
}

bool modem_waits(const struct modem *m, unsigned dlci)
{
	if (m->stage == MODEM_ENTERING || (m->stop && !m->is_to_end))
		return true;
	return m->stage == MODEM_UP && !m->stop && !m->connections[dlci].is_told
	       && (m->connections[0].request || m->connections[dlci].request);
}

bool modem_carries_data(struct modem *m, unsigned dlci)
{
	size_t none;

	return cimbaloty_data_give_at(&m->relay, (uint8_t)dlci, m->out, 0, &none) == CIMBALOTY_DATA_OK;
}

static bool takes_commands(struct modem *m, unsigned dlci)
{
	return m->stage == MODEM_UP && !m->stop && m->options->carries[dlci] != DATA && !modem_carries_data(m, dlci);
}

static bool send_command(struct modem *m, unsigned dlci, const char *text, size_t length, uint64_t *number)
{
	if (length > COMMAND || cimbaloty_command(&m->c, (uint8_t)dlci, text, length, number) != CIMBALOTY_OK)
		return false;
	m->last = *number;
	m->commands++;
	m->cut_on &= ~(UINT64_C(1) << dlci);
	return true;
}

bool modem_ask(struct modem *m, unsigned dlci, const char *text, size_t length, uint64_t *number)
{
	return takes_commands(m, dlci) && send_command(m, dlci, text, length, number);
}

bool modem_ask_text(struct modem *m, unsigned dlci, const struct text *text, uint64_t *number)
{
	size_t taken = 0;

	if (!takes_commands(m, dlci) || text->length > TEXT
	    || cimbaloty_data_begin(&m->relay, (uint8_t)dlci, CIMBALOTY_DATA_BY_PROMPT, CIMBALOTY_DATA_UNTIL_CLOSE) != CIMBALOTY_DATA_OK)
		return false;
	if (cimbaloty_data_give_at(&m->relay, (uint8_t)dlci, (const uint8_t *)text->octets, text->length, &taken) == CIMBALOTY_DATA_OK
	    && taken == text->length && send_command(m, dlci, text->command, text->command_length, number))
		return true;
	modem_end_text(m, dlci);
	return false;
}

void modem_end_text(struct modem *m, unsigned dlci)
{
	cimbaloty_data_lines(&m->relay, (uint8_t)dlci);
}

bool modem_is_cut(const struct modem *m, unsigned dlci)
{
	return m->cut_on >> dlci & 1;
}

bool modem_outcome(struct modem *m, struct cimbaloty_outcome *o, char **text, int64_t now)
{
	while (cimbaloty_peek_outcome(&m->c, o) == CIMBALOTY_OK) {
		*text = malloc(o->length + 1);
		if (!*text || cimbaloty_poll_outcome(&m->c, o, *text, o->length) != CIMBALOTY_OK) {
			free(*text);
			return false;
		}
		if (!watch_outcome(m, o, now)) {
			m->commands--;
			return true;
		}
		free(*text);
	}
	return false;
}

bool modem_line(struct modem *m, struct cimbaloty_line *u, char *text, size_t room)
{
	return cimbaloty_poll_line(&m->c, u, text, room) == CIMBALOTY_OK;
}

void modem_leave(struct modem *m, bool is_to_end, int64_t now)
{
	m->is_to_end = is_to_end;
	m->wait = FIRST_WAIT;
	if (m->stage == MODEM_ENTERING) {
		tty_close(m->fd);
		m->fd = -1;
		m->stage = MODEM_GONE;
	}
	if (m->stage == MODEM_UP && !m->stop && cimbaloty_stop(&m->c, &m->stop) != CIMBALOTY_OK)
		modem_end_line(m, now);
	if (m->stage == MODEM_UP)
		m->last = m->stop;
	m->retry_at = is_to_end ? INT64_MAX : now;
}

void modem_end(struct modem *m)
{
	if (m->fd >= 0)
		tty_close(m->fd);
	m->fd = -1;
	cimbaloty_free(&m->c);
	cimbaloty_data_free(&m->relay);
}

short modem_events(const struct modem *m)
{
	return (short)((m->in_at == m->in_length ? POLLIN : 0) | (m->out_length || m->is_queue_long ? POLLOUT : 0));
}

int64_t modem_deadline(struct modem *m, int64_t now)
{
	switch (m->stage) {
	case MODEM_GONE: return m->retry_at;
	case MODEM_ENTERING: return m->entry.until;
	case MODEM_LEFT: return now + AGAIN;
	default: break;
	}
	int64_t due = watch_deadline(m, now);
	bool is_refused = (m->is_blocked || m->in_at < m->in_length) && m->out_length == 0;     /* memory was refused */
	return is_refused && now + AGAIN < due ? now + AGAIN : due;
}

unsigned modem_open_count(struct modem *m)
{
	unsigned open = 0;

	for (unsigned i = 1; i <= m->options->connections; i++)
		open += cimbaloty_state(&m->c, (uint8_t)i) == CIMBALOTY_IS_OPENED;
	return open;
}

const char *modem_state(struct modem *m, unsigned dlci)
{
	switch (cimbaloty_state(&m->c, (uint8_t)dlci)) {
	case CIMBALOTY_IS_SHUT: return "shut";
	case CIMBALOTY_IS_OPENING: return "opening";
	case CIMBALOTY_IS_OPENED: return "connected";
	case CIMBALOTY_IS_CLOSING: return "closing";
	case CIMBALOTY_IS_STOPPING: return "stopping";
	default: return "no multiplexer";
	}
}

uint64_t modem_waited(struct modem *m, unsigned dlci)
{
	uint64_t ticks = 0;

	cimbaloty_waiting_ticks(&m->c, (uint8_t)dlci, &ticks);
	return ticks * m->options->t1;
}
