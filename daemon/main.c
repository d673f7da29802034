/* main.c - cimbalotyd shares one modem among programs: cimbalotyd [OPTION..] TTY DIRECTORY (cimbalotyd.8)
 *
 * Each connection is a pseudo-terminal, DIRECTORY/at1 and so on. A program writes a command line and CR there, and reads
 * the answer. Unsolicited lines come to DIRECTORY/events. One loop waits for the line, the terminals and the signals. */
#define _GNU_SOURCE
#include "data.h"
#include "dialect.h"
#include "events.h"
#include "log.h"
#include "modem.h"
#include "notify.h"
#include "terminal.h"
#include "texts.h"
#include <errno.h>
#include <fcntl.h>
#include <inttypes.h>
#include <limits.h>
#include <poll.h>
#include <signal.h>
#include <stdlib.h>
#include <string.h>
#include <sys/file.h>
#include <sys/signalfd.h>
#include <unistd.h>

enum { LINE, INOTIFY, SIGNALS, TERMINALS, ENTRIES = TERMINALS + CONNECTIONS + 1 + LANES };
enum { PASSES = 16 };   /* of data in a round, before others have their turn */
enum { TICKS_TO_END = 5, MORE_TO_END = 500 };   /* a stop is given up at the fourth tick; milliseconds */

struct daemon {
	struct options options;
	struct cimbaloty_dialect codes;
	struct modem modem;
	struct terminals terminals;
	struct events events;
	struct data data;
	struct notify notify;
	int signals, folder;
	bool is_ending, goes_on;        /* goes_on: there is more data to pass at once */
	int64_t ends_at;
};

/* ---- Between modem and terminals ---- */

/* Puts the lines of an outcome on the terminal that asked, if who asked is still there. */
static void answer(struct daemon *d, const struct cimbaloty_outcome *o, const char *text)
{
	for (unsigned i = 1; i <= d->terminals.count; i++) {
		struct terminal *t = &d->terminals.all[i];

		if (!t->is_waiting || t->asked != o->number)
			continue;
		t->is_waiting = false;
		if (d->options.carries[i] == TEXTS)
			modem_end_text(&d->modem, i);
		if (t->is_orphan)
			return;
		bool is_whole = o->answer == CIMBALOTY_DONE && !modem_is_cut(&d->modem, i);

		if (!is_whole)
			terminal_put(t, "ERROR", 5);
		for (size_t at = 0; is_whole && at < o->length;) {
			const char *line_end = memchr(text + at, '\n', o->length - at);
			size_t length = line_end ? (size_t)(line_end - (text + at)) : o->length - at;

			terminal_put(t, text + at, length);
			at += length + 1;
		}
		return;
	}
}

static void take_outcomes(struct daemon *d, int64_t now)
{
	struct cimbaloty_outcome o;
	char *text;

	while (modem_outcome(&d->modem, &o, &text, now)) {
		answer(d, &o, text);
		free(text);
	}
}

static void write_all(struct daemon *d)
{
	for (unsigned i = 0; i <= d->terminals.count; i++)
		terminal_write(&d->terminals.all[i]);
}

/* Takes unsolicited lines while there is room for them: the driver holds the others, and has the modem wait. Of a driver
 * that goes all are taken. */
static void take_lines(struct daemon *d)
{
	char text[CIMBALOTY_LINE_LENGTH];
	struct cimbaloty_line u;
	bool has_room;

	do {
		while ((d->modem.stage == MODEM_LEFT || events_have_room(&d->events)) && modem_line(&d->modem, &u, text, sizeof text))
			events_put(&d->events, text, u.length);
		has_room = events_have_room(&d->events);
		write_all(d);
	} while (!has_room && events_have_room(&d->events));
}

/* A command that was made waits for its outcome; else the answer is ERROR. */
static void await(struct terminal *t, bool is_made)
{
	t->is_waiting = is_made;
	t->is_orphan = is_made && t->is_last_line;
	t->commands += is_made;
	if (!is_made && !t->is_last_line)
		terminal_put(t, "ERROR", 5);
}

/* The line that a program wrote is a command on its connection, or the program is asked for the text of one. What has left gives none. */
static void ask_line(struct daemon *d, unsigned place)
{
	struct terminal *t = &d->terminals.all[place];
	bool is_text = d->options.carries[place] == TEXTS && t->length <= COMMAND && texts_are_asked(t->line, t->length);

	if (!is_text || t->is_last_line)
		await(t, !is_text && modem_ask(&d->modem, place, t->line, t->length, &t->asked));
	else if (!terminal_ask_text(t))
		await(t, false);
	t->length = 0;
	t->is_last_line = false;
}

/* The text that a program wrote goes to the modem behind its prompt; or the program has given up. */
static void ask_text(struct daemon *d, unsigned place)
{
	struct terminal *t = &d->terminals.all[place];

	if (t->text->end == GIVES_TEXT_UP)
		terminal_put(t, "OK", 2);
	else
		await(t, modem_ask_text(&d->modem, place, t->text, &t->asked));
	free(t->text);
	t->text = NULL;
}

/* What a program wrote is asked, as far as it is whole. */
static void ask(struct daemon *d, unsigned place)
{
	struct terminal *t = &d->terminals.all[place];

	while (!modem_waits(&d->modem, place)) {
		if (terminal_next_text(t))
			ask_text(d, place);
		else if (terminal_next_line(t))
			ask_line(d, place);
		else
			return;
	}
}

/* ---- Rounds ---- */

/* Milliseconds until something is due; -1 where nothing is. */
static int time_left(struct daemon *d, int64_t now)
{
	int64_t due = modem_deadline(&d->modem, now);

	if (d->notify.every > 0 && d->notify.next < due)
		due = d->notify.next;
	if (d->is_ending && d->ends_at < due)
		due = d->ends_at;
	if (data_deadline(&d->data) < due)
		due = data_deadline(&d->data);
	if (d->goes_on)
		return 0;
	if (due == INT64_MAX)
		return -1;
	return due <= now ? 0 : due - now > INT_MAX ? INT_MAX : (int)(due - now);
}

/* Waits until something is there or due. Gives whether the line has something to read, or has ended. */
static bool wait_for_any(struct daemon *d)
{
	struct pollfd p[ENTRIES] = {
		[LINE] = { d->modem.fd, modem_events(&d->modem), 0 },
		[INOTIFY] = { d->terminals.watcher, POLLIN, 0 },
		[SIGNALS] = { d->signals, POLLIN, 0 },
	};

	for (unsigned i = 0; i <= d->terminals.count; i++) {
		const struct terminal *t = &d->terminals.all[i];

		p[TERMINALS + i].fd = t->ours;
		p[TERMINALS + i].events = (short)((t->in_length < PENDING ? POLLIN : 0) | (terminal_waits(t) ? POLLOUT : 0));
	}
	for (unsigned i = 0; i < d->data.count; i++)
		p[TERMINALS + d->terminals.count + 1 + i] = (struct pollfd){ d->data.all[i].terminal->ours, data_events(&d->data.all[i]), 0 };
	poll(p, TERMINALS + d->terminals.total, time_left(d, milliseconds()));
	return p[LINE].revents & ~POLLOUT;
}

/* Says how things stand. */
static void report(struct daemon *d)
{
	static const char *const stages[] = { "isn't open", "is being entered", "is in the multiplexer", "is being left" };
	struct modem *m = &d->modem;

	say(LOG_NOTICE, "%s %s; N1 %u, T1 %u ms; entered %lu times, lost %lu times%s%s", m->options->tty, stages[m->stage], m->options->n1,
	    m->options->t1, m->entries, m->losses, *m->told ? "; " : "", m->told);
	say(LOG_NOTICE, "frames: %" PRIu64 " came and %" PRIu64 " went; bad %" PRIu64 ", longer than N1 %" PRIu64 ", the longest %u octets; %" PRIu64 " octets outside of frames",
	    m->came.whole, m->went.whole, m->came.bad, m->came.longer, m->came.longest, m->came.outside);
	for (unsigned i = 1; i <= d->terminals.count; i++) {
		const struct terminal *t = &d->terminals.all[i];
		char waits[40] = "";

		if (t->is_waiting)
			snprintf(waits, sizeof waits, ", one for %lld s", (long long)(modem_waited(m, i) / 1000));
		say(LOG_NOTICE, "at%u (%s): %s, opened %lu times; %u programs; %lu commands%s%s", i, t->device, modem_state(m, i), m->openings[i],
		    t->opens, t->commands, waits, t->is_waiting && t->is_orphan ? ", whose program has left" : "");
	}
	for (unsigned i = 0; i < d->data.count; i++) {
		const struct lane *l = &d->data.all[i];

		say(LOG_NOTICE, "data%u (%s): %s; %u programs; %lu octets came and %lu went", l->dlci, l->terminal->device,
		    l->carries ? "carries data" : "carries none", l->terminal->opens, l->came, l->went);
	}
	say(LOG_NOTICE, "events (%s): %u programs; %lu lines came, %u are kept, %lu weren't", d->terminals.all[0].device,
	    d->terminals.all[0].opens, d->events.lines, d->events.count, d->events.unkept);
}

static void take_signals(struct daemon *d, int64_t now)
{
	struct signalfd_siginfo s;

	while (read(d->signals, &s, sizeof s) == sizeof s)
		if (s.ssi_signo == SIGUSR1)
			report(d);
		else if (s.ssi_signo == SIGHUP && !d->is_ending) {
			say(LOG_NOTICE, "%s is opened anew", d->options.tty);
			modem_leave(&d->modem, false, now);
		} else if (s.ssi_signo != SIGHUP) {
			notify_say(&d->notify, "STOPPING=1");
			d->ends_at = d->is_ending ? now : now + TICKS_TO_END * (int64_t)d->options.t1 + MORE_TO_END;
			d->is_ending = true;
			modem_leave(&d->modem, true, now);
		}
}

static void tell_status(struct daemon *d)
{
	char status[sizeof d->notify.status];
	struct modem *m = &d->modem;

	if (m->stage == MODEM_UP)
		snprintf(status, sizeof status, "%u of %u connections are open", modem_open_count(m), d->options.connections);
	else
		snprintf(status, sizeof status, "the modem isn't in the multiplexer%s%s", *m->told ? ": " : "", m->told);
	notify_status(&d->notify, status);
}

static void go_round(struct daemon *d)
{
	bool can_read = wait_for_any(d);
	int64_t now = milliseconds();

	take_signals(d, now);
	terminals_look(&d->terminals);
	data_look(&d->data, now);
	modem_turn(&d->modem, now, can_read);
	take_outcomes(d, now);
	events_look(&d->events);
	take_lines(d);
	d->goes_on = data_turn(&d->data, now);
	modem_settle(&d->modem, now);
	for (unsigned i = 1; i <= d->terminals.count; i++)
		ask(d, i);
	modem_send(&d->modem, now);
	for (unsigned pass = 0; d->goes_on && pass < PASSES; pass++) {
		d->goes_on = data_turn(&d->data, now);
		modem_send(&d->modem, now);
	}
	write_all(d);
	tell_status(d);
	notify_alive(&d->notify, now);
}

/* ---- Begin and end ---- */

/* The folder is this program's alone. */
static bool lock_folder(struct daemon *d)
{
	const char *path = d->options.directory;

	d->folder = open(path, O_RDONLY | O_DIRECTORY | O_CLOEXEC);
	if (d->folder < 0)
		say(LOG_ERR, "%s: %s: make the folder first", path, strerror(errno));
	else if (flock(d->folder, LOCK_EX | LOCK_NB) == 0)
		return true;
	else if (errno == EWOULDBLOCK)
		say(LOG_ERR, "%s: another cimbalotyd serves it: end that one, or give another folder", path);
	else
		say(LOG_ERR, "%s: it can't be locked: %s", path, strerror(errno));
	return false;
}

static bool catch_signals(struct daemon *d)
{
	sigset_t caught;

	sigemptyset(&caught);
	sigaddset(&caught, SIGTERM);
	sigaddset(&caught, SIGINT);
	sigaddset(&caught, SIGHUP);
	sigaddset(&caught, SIGUSR1);
	signal(SIGPIPE, SIG_IGN);
	sigprocmask(SIG_BLOCK, &caught, NULL);
	d->signals = signalfd(-1, &caught, SFD_NONBLOCK | SFD_CLOEXEC);
	if (d->signals < 0)
		say(LOG_ERR, "no signals: %s", strerror(errno));
	return d->signals >= 0;
}

static bool begin(struct daemon *d)
{
	if (cimbaloty_version() != CIMBALOTY_VERSION) {
		say(LOG_ERR, "the library is of version %x, and its header of %x: build cimbalotyd anew", (unsigned)cimbaloty_version(), CIMBALOTY_VERSION);
		return false;
	}
	if (!lock_folder(d) || !catch_signals(d) || !modem_begin(&d->modem, &d->options, &d->codes, milliseconds())
	    || !terminals_open(&d->terminals, &d->options))
		return false;
	data_open(&d->data, &d->terminals, &d->modem, &d->options);
	if (events_open(&d->events, &d->terminals, &d->options))
		return true;
	say(LOG_ERR, "no memory for %u unsolicited lines: see --keep", d->options.keep);
	return false;
}

static void end(struct daemon *d)
{
	modem_end(&d->modem);
	cimbaloty_dialect_free(&d->codes);
	events_close(&d->events);
	data_close(&d->data);
	terminals_close(&d->terminals);
	notify_close(&d->notify);
	if (d->signals >= 0)
		close(d->signals);
	if (d->folder >= 0)
		close(d->folder);
	options_free(&d->options);
}

/* Whether data may come behind a command that dials. */
static bool dials(const struct options *o)
{
	for (unsigned place = 1; place <= CONNECTIONS; place++)
		if (o->carries[place] == DATA_BEHIND_CONNECT)
			return true;
	return false;
}

int main(int argc, char **argv)
{
	static struct daemon d = { .codes = CIMBALOTY_DIALECT_NONE, .modem = { .fd = -1 }, .terminals = { .watcher = -1 }, .signals = -1, .folder = -1 };
	enum options_result result = options_read(&d.options, argc, argv);

	d.notify.fd = -1;
	if (result != OPTIONS_TAKEN || !dialect_read(&d.codes, d.options.dialect, dials(&d.options))) {
		options_free(&d.options);
		return result == OPTIONS_SHOWN ? 0 : 2;
	}
	log_open(d.options.to_syslog, d.options.level);
	notify_open(&d.notify);
	bool is_begun = begin(&d);
	if (is_begun) {
		notify_say(&d.notify, "READY=1");
		modem_send(&d.modem, milliseconds());
		while (!d.is_ending || (d.modem.stage != MODEM_GONE && milliseconds() < d.ends_at))
			go_round(&d);
	}
	end(&d);
	return is_begun ? 0 : 1;
}
