/* watch.c - keeps a modem's connections open and notices where it falls silent. */
#define _GNU_SOURCE
#include "watch.h"
#include "log.h"
#include <stdio.h>

enum { MISSES = 3, STEADY = 10000, FIRST_WAIT = 1000, LONGEST_WAIT = 60000, CUT_LIMIT = 5000 }; /* milliseconds, but MISSES */

static const char *name_of(uint8_t answer)
{
	switch (answer) {
	case CIMBALOTY_NOT_OPEN: return "connection 0 isn't open";
	case CIMBALOTY_REFUSED: return "the modem refuses it";
	case CIMBALOTY_NO_ANSWER: return "the modem doesn't answer";
	case CIMBALOTY_CLOSED: return "the modem closed it";
	case CIMBALOTY_LOST: return "the line is lost";
	case CIMBALOTY_BUSY: return "the driver is busy";
	default: return "it can't be done";
	}
}

static int64_t earlier(int64_t a, int64_t b)
{
	return a < b ? a : b;
}

/* ---- Connections ---- */

/* False where there is no memory. */
static bool request_open(struct modem *m, unsigned dlci)
{
	if (cimbaloty_open(&m->c, (uint8_t)dlci, &m->connections[dlci].request) != CIMBALOTY_OK)
		return false;
	m->last = m->connections[dlci].request;
	return true;
}

void watch_begin(struct modem *m, int64_t now)
{
	for (unsigned i = 0; i <= CONNECTIONS; i++)
		m->connections[i] = (struct connection){ .retry_at = now, .wait = FIRST_WAIT };
	m->tick_at = 0;
	m->probe = 0;
	m->missed = 0;
	m->probes = PROBES_UNKNOWN;
	request_open(m, 0);
}

static void put_off(struct connection *k, int64_t now)
{
	k->retry_at = now + k->wait;
	k->wait = k->wait * 2 < LONGEST_WAIT ? k->wait * 2 : LONGEST_WAIT;
}

/* A connection that is shut is opened again, later where it was open for a short while only. */
static void open_again(struct modem *m, unsigned dlci, int64_t now)
{
	struct connection *k = &m->connections[dlci];

	if (k->request || cimbaloty_state(&m->c, (uint8_t)dlci) != CIMBALOTY_IS_SHUT)
		return;
	if (k->opened_at) {
		say(LOG_NOTICE, "at%u: the modem shut connection %u: it is opened again", dlci, dlci);
		if (now - k->opened_at >= STEADY) {
			k->wait = FIRST_WAIT;
			k->retry_at = now;
		} else
			put_off(k, now);
		k->opened_at = 0;
	}
	if (now >= k->retry_at && !request_open(m, dlci))
		put_off(k, now);
}

static void open_all_shut(struct modem *m, int64_t now)
{
	for (unsigned i = 1; i <= m->options->connections; i++)
		open_again(m, i, now);
}

/* ---- Probes ---- */

static void request_probe(struct modem *m, int64_t now)
{
	static const uint8_t text[] = "alive";

	if (m->probe)
		return;
	m->probe_at = now;
	if (cimbaloty_probe(&m->c, text, sizeof text - 1, &m->probe) == CIMBALOTY_OK)
		m->last = m->probe;
	else
		m->heard_at = now;      /* no memory: later */
}

/* When the next probe is due: never where they are off, or where the modem doesn't know them. */
static int64_t probe_due(const struct modem *m)
{
	if (m->options->probe == 0 || m->probe || m->probes != PROBES_ANSWERED)
		return INT64_MAX;
	return m->missed ? m->probe_at : m->heard_at + (int64_t)m->options->probe * 1000;
}

/* The first probe is made as the modem has just answered: where it isn't answered, the modem knows none. */
static void probed(struct modem *m, uint8_t answer, int64_t now)
{
	bool heard = m->heard_at > m->probe_at;

	m->probe = 0;
	if (answer == CIMBALOTY_PROBE_BACK || answer == CIMBALOTY_REFUSED) {
		m->probes = PROBES_ANSWERED;
		m->missed = 0;
	} else if (answer == CIMBALOTY_NO_ANSWER && m->probes == PROBES_UNKNOWN) {
		m->probes = PROBES_IGNORED;
		say(LOG_NOTICE, "the modem answers no probes: where it resets and doesn't hang up, only --limit finds it out");
	} else if (answer == CIMBALOTY_NO_ANSWER) {
		m->missed = heard ? 0 : m->missed + 1;
		if (m->missed == MISSES)
			modem_lose(m, now, "the modem has fallen silent: it answers no probe");
	}
}

/* A request had no answer. Is the modem there? */
static void doubt(struct modem *m, int64_t now)
{
	if (m->probes == PROBES_ANSWERED && m->options->probe)
		request_probe(m, now);
	else if (modem_open_count(m) == 0)
		modem_lose(m, now, "the modem has fallen silent: it opens no connection");
}

/* ---- Outcomes ---- */

static void control_opened(struct modem *m, uint8_t answer, int64_t now)
{
	char why[80];

	if (answer == CIMBALOTY_OPENED) {
		if (m->options->probe)
			request_probe(m, now);
		open_all_shut(m, now);
	} else if (answer != CIMBALOTY_LOST) {
		snprintf(why, sizeof why, "connection 0 doesn't open: %s", name_of(answer));
		modem_lose(m, now, why);
	}
}

static void opened_or_shut(struct modem *m, unsigned dlci, uint8_t answer, int64_t now)
{
	struct connection *k = &m->connections[dlci];

	if (answer == CIMBALOTY_OPENED || answer == CIMBALOTY_ALREADY_OPEN) {
		say(k->is_told ? LOG_NOTICE : LOG_DEBUG, "at%u: connection %u is open", dlci, dlci);
		k->opened_at = now;
		k->is_told = false;
		m->openings[dlci]++;
		return;
	}
	k->opened_at = 0;
	if (answer == CIMBALOTY_SHUT)
		open_again(m, dlci, now);
	if (answer == CIMBALOTY_SHUT || answer == CIMBALOTY_LOST)
		return;
	if (!k->is_told)
		say(LOG_WARNING, "at%u: connection %u doesn't open: %s; it is tried again", dlci, dlci, name_of(answer));
	k->is_told = true;
	put_off(k, now);
	if (answer == CIMBALOTY_NO_ANSWER)
		doubt(m, now);
}

bool watch_outcome(struct modem *m, const struct cimbaloty_outcome *o, int64_t now)
{
	if (o->number == m->probe) {
		probed(m, o->answer, now);
		return true;
	}
	if (o->number == m->stop) {
		if (o->answer != CIMBALOTY_STOPPED && o->answer != CIMBALOTY_LOST)
			say(LOG_WARNING, "the multiplexer isn't ended: %s", name_of(o->answer));
		modem_end_line(m, now);
		return true;
	}
	for (unsigned i = 0; i <= m->options->connections; i++)
		if (o->number == m->connections[i].request) {
			m->connections[i].request = 0;
			if (i == 0)
				control_opened(m, o->answer, now);
			else
				opened_or_shut(m, i, o->answer, now);
			return true;
		}
	return false;
}

/* ---- Time ---- */

static bool wants_ticks(struct modem *m)
{
	return m->commands || cimbaloty_wants_tick(&m->c);
}

static void keep_time(struct modem *m, int64_t now)
{
	if (!wants_ticks(m))
		m->tick_at = 0;
	else if (m->tick_at == 0)
		m->tick_at = now + m->options->t1;
	else if (now >= m->tick_at) {
		cimbaloty_tick(&m->c);
		m->tick_at = now + m->options->t1;
	}
}

/* A command that waits for too long goes with its connection, which is closed and opened again. So does one whose answer has lost
 * a frame: its end may have been in that. */
static void keep_limit(struct modem *m, unsigned dlci)
{
	struct connection *k = &m->connections[dlci];
	bool is_cut = modem_is_cut(m, dlci) && m->options->limit * 1000u > CUT_LIMIT;
	uint64_t limit = is_cut ? CUT_LIMIT : (uint64_t)m->options->limit * 1000, ticks;

	if (k->request || cimbaloty_waiting_ticks(&m->c, (uint8_t)dlci, &ticks) != CIMBALOTY_OK || ticks * m->options->t1 < limit
	    || cimbaloty_state(&m->c, (uint8_t)dlci) != CIMBALOTY_IS_OPENED
	    || cimbaloty_close(&m->c, (uint8_t)dlci, &k->request) != CIMBALOTY_OK)
		return;
	m->last = k->request;
	if (is_cut)
		say(LOG_WARNING, "at%u: an answer has lost a frame: connection %u is closed and opened again", dlci, dlci);
	else
		say(LOG_WARNING, "at%u: a command has had no answer for %u s: connection %u is closed and opened again", dlci, m->options->limit, dlci);
}

bool watch_hang_up(struct modem *m, unsigned dlci)
{
	struct connection *k = &m->connections[dlci];

	if (m->stage != MODEM_UP || m->stop || cimbaloty_state(&m->c, (uint8_t)dlci) != CIMBALOTY_IS_OPENED)
		return true;
	if (k->request || cimbaloty_close(&m->c, (uint8_t)dlci, &k->request) != CIMBALOTY_OK)
		return false;
	m->last = k->request;
	return true;
}

void watch_turn(struct modem *m, int64_t now)
{
	keep_time(m, now);
	if (m->stop)
		return;
	if (!m->connections[0].request && cimbaloty_state(&m->c, 0) != CIMBALOTY_IS_OPENED) {
		modem_lose(m, now, "the modem ended the multiplexer");
		return;
	}
	for (unsigned i = 1; i <= m->options->connections; i++)
		keep_limit(m, i);
	if (now >= probe_due(m))
		request_probe(m, now);
	if (!m->connections[0].request)
		open_all_shut(m, now);
}

int64_t watch_deadline(struct modem *m, int64_t now)
{
	int64_t due = INT64_MAX;

	if (wants_ticks(m))
		due = m->tick_at ? m->tick_at : now + m->options->t1;
	if (m->stop || m->connections[0].request)
		return due;
	due = earlier(due, probe_due(m));
	for (unsigned i = 1; i <= m->options->connections; i++)
		if (!m->connections[i].request && cimbaloty_state(&m->c, (uint8_t)i) == CIMBALOTY_IS_SHUT)
			due = earlier(due, m->connections[i].retry_at);
	return due;
}
