/* terminal.c - pseudo-terminals that programs open in place of the modem. */
#define _GNU_SOURCE
#include "terminal.h"
#include "log.h"
#include "texts.h"
#include <errno.h>
#include <fcntl.h>
#include <stdlib.h>
#include <string.h>
#include <sys/inotify.h>
#include <sys/ioctl.h>
#include <sys/stat.h>
#include <unistd.h>

enum { LARGE = 1 << 16, PASSES = 8 };

/* ---- Made and ended ---- */

static bool set_owner(const struct terminal *t, const struct options *o)
{
	return !(o->has_group && fchown(t->theirs, (uid_t)-1, o->group)) && !(o->has_mode && fchmod(t->theirs, o->mode));
}

/* A new link takes the place of an old one at once; what isn't a link stays. */
static bool link_to(const struct terminal *t)
{
	char fresh[sizeof t->path + 8];
	struct stat there;

	if (lstat(t->path, &there) == 0 && !S_ISLNK(there.st_mode)) {
		errno = EEXIST;
		return false;
	}
	snprintf(fresh, sizeof fresh, "%s.new", t->path);
	unlink(fresh);
	return symlink(t->device, fresh) == 0 && rename(fresh, t->path) == 0;
}

static bool open_one(struct terminals *ts, struct terminal *t)
{
	t->ours = posix_openpt(O_RDWR | O_NOCTTY | O_CLOEXEC);
	if (t->ours < 0 || fcntl(t->ours, F_SETFL, O_NONBLOCK) || grantpt(t->ours) || unlockpt(t->ours) || ptsname_r(t->ours, t->device, sizeof t->device))
		return false;
	t->theirs = open(t->device, O_RDWR | O_NOCTTY | O_CLOEXEC);
	if (t->theirs < 0 || !set_owner(t, ts->options) || tcgetattr(t->theirs, &t->raw))
		return false;
	cfmakeraw(&t->raw);
	cfsetspeed(&t->raw, B115200);
	if (tcsetattr(t->theirs, TCSANOW, &t->raw))
		return false;
	t->watch = inotify_add_watch(ts->watcher, t->device, IN_OPEN | IN_CLOSE | IN_MODIFY | IN_ACCESS);
	return t->watch >= 0 && link_to(t);
}

static void close_one(struct terminals *ts, struct terminal *t)
{
	if (t->watch >= 0)
		inotify_rm_watch(ts->watcher, t->watch);
	if (t->theirs >= 0)
		close(t->theirs);
	if (t->ours >= 0)
		close(t->ours);
	t->ours = t->theirs = t->watch = -1;
}

static void drop_text(struct terminal *t)
{
	free(t->text);
	t->text = NULL;
}

/* The link is never without a terminal. */
void terminals_renew(struct terminals *ts, struct terminal *t, const char *why)
{
	struct terminal old = *t;

	drop_text(t);
	t->in_length = t->fresh = t->length = t->out_at = t->out_length = 0;
	t->opens = 0;
	t->is_orphan = t->is_waiting;
	t->ours = t->theirs = t->watch = -1;
	if (!open_one(ts, t)) {
		say(LOG_ERR, "%s: %s: it is gone; start cimbalotyd again", t->path, strerror(errno));
		close_one(ts, t);
	}
	close_one(ts, &old);
	say(LOG_NOTICE, "%s %s: it is made anew", t->path, why);
}

/* The name of the terminal at a place: events, at1, at2 .., and data1, data2 .. by their connections. */
static void name_of(const struct terminals *ts, unsigned place, char *name, size_t room)
{
	if (place == 0)
		snprintf(name, room, "events");
	else if (place <= ts->count)
		snprintf(name, room, "at%u", place);
	else
		snprintf(name, room, "data%u", ts->options->data[place - ts->count - 1]);
}

bool terminals_open(struct terminals *ts, const struct options *o)
{
	*ts = (struct terminals){ .count = o->connections, .total = o->connections + 1 + o->lanes, .watcher = inotify_init1(IN_NONBLOCK | IN_CLOEXEC), .options = o };
	ts->all = calloc(ts->total, sizeof *ts->all);
	if (!ts->all || ts->watcher < 0) {
		say(LOG_ERR, "no pseudo-terminals: %s", strerror(errno));
		return false;
	}
	ts->data = ts->all + ts->count + 1;
	for (unsigned i = 0; i < ts->total; i++)
		ts->all[i].ours = ts->all[i].theirs = ts->all[i].watch = -1;
	for (unsigned i = 0; i < ts->total; i++) {
		struct terminal *t = &ts->all[i];
		char name[16];

		t->is_data = i > ts->count;
		name_of(ts, i, name, sizeof name);
		if (snprintf(t->path, sizeof t->path, "%s/%s", o->directory, name) >= (int)sizeof t->path)
			errno = ENAMETOOLONG;
		else if (open_one(ts, t))
			continue;
		say(LOG_ERR, "%s: %s%s", t->path, strerror(errno), errno == EEXIST ? ", and it is no link: remove it" : "");
		t->path[0] = 0;
		return false;
	}
	return true;
}

void terminals_close(struct terminals *ts)
{
	for (unsigned i = 0; ts->all && i < ts->total; i++) {
		struct terminal *t = &ts->all[i];

		if (t->ours >= 0 && t->path[0])
			unlink(t->path);
		close_one(ts, t);
		free(t->out);
		free(t->text);
	}
	free(ts->all);
	if (ts->watcher >= 0)
		close(ts->watcher);
}

/* ---- Who comes and leaves ---- */

/* Reads all that there is room for. What stands there is read at once, also while an answer is awaited: so it is known who
 * wrote it. Nobody reads what is written to events. */
static void drain(struct terminals *ts, struct terminal *t)
{
	while (t->ours >= 0 && !t->is_data && t->in_length < PENDING) {
		ssize_t n = read(t->ours, t->in + t->in_length, PENDING - t->in_length);

		if (n < 0 && errno == EIO)
			terminals_renew(ts, t, "was hung up");
		if (n <= 0 || t == ts->all)
			return;
		t->in_length += (size_t)n;
		t->fresh += (size_t)n;
	}
}

static void see(struct terminal *t, uint32_t what)
{
	if (what & IN_OPEN)
		t->opens++;
	if (what & IN_ACCESS && t->has_left)
		t->read_behind = true;
	if (what & IN_MODIFY)
		*(t->has_left ? &t->wrote_behind : &t->wrote_before) = true;
	if (!(what & IN_CLOSE) || t->opens == 0 || --t->opens > 0)
		return;
	t->wrote_before = t->wrote_before || t->wrote_behind;
	t->wrote_behind = false;
	t->has_left = true;
}

static bool is_line_end(char octet)
{
	return octet == '\r' || octet == '\n';
}

/* The end of the first whole line among the octets before `until`, behind its line end; 0 where none is whole. */
static size_t first_line(const struct terminal *t, size_t until)
{
	size_t end = 0;

	while (t->length == 0 && end < until && is_line_end(t->in[end]))
		end++;
	while (end < until && !is_line_end(t->in[end]))
		end++;
	return end < until ? end + 1 : 0;
}

/* Where the last line begins, if it is whole and has AT at its head alone: then no half of a line stands glued before it.
 * Else the end. */
static size_t last_command(const struct terminal *t)
{
	size_t end = t->in_length, from;

	while (end > 0 && is_line_end(t->in[end - 1]))
		end--;
	if (end == t->in_length)
		return t->in_length;
	for (from = end; from > 0 && !is_line_end(t->in[from - 1]); from--)
		if (from + 1 < end && (!memcmp(t->in + from, "AT", 2) || !memcmp(t->in + from, "at", 2)))
			return t->in_length;
	return from == 0 && t->length ? t->in_length : from;
}

/* Where the octets begin that a program wrote which came in the round in which the last one left; the end where there are
 * none, or nobody can tell. */
static size_t newcomer(const struct terminal *t)
{
	if (!t->wrote_behind || t->in_length == PENDING)
		return t->in_length;
	return t->wrote_before ? last_command(t) : t->in_length - t->fresh;
}

bool terminal_reset(const struct terminal *t)
{
	tcflush(t->theirs, TCIFLUSH);
	tcflow(t->theirs, TCOON);
	if (t->opens == 0)
		ioctl(t->theirs, TIOCNXCL);
	return tcsetattr(t->theirs, TCSANOW, &t->raw) == 0;
}

/* What the last program left behind is dropped, but for a whole line that may be asked at once: a command that is written
 * and not waited for is still asked. Where it can't be told what a newcomer wrote, that is dropped too. */
static void clean(struct terminals *ts, struct terminal *t)
{
	bool is_full = t->in_length == PENDING;
	size_t from = newcomer(t);
	bool is_mixed = t->wrote_behind && from == t->in_length;
	size_t first = t->is_waiting || t->text || is_mixed ? 0 : first_line(t, from);

	memmove(t->in + first, t->in + from, t->in_length - from);
	t->in_length -= from - first;
	drop_text(t);
	t->is_last_line = first > 0;
	if (!t->is_last_line)
		t->length = 0;
	t->out_at = t->out_length = 0;
	t->is_orphan = t->is_waiting;
	if (is_full)
		tcflush(t->ours, TCIFLUSH);
	if (!terminal_reset(t) && t->opens == 0)
		terminals_renew(ts, t, "was hung up");
	if (t->read_behind)
		terminals_renew(ts, t, "is hung up: a program read what another one had left there");
	else if (is_full && t->opens > 0 && !is_mixed)
		terminals_renew(ts, t, "is hung up: a program came before all was dropped that another one had left there");
	else if (is_mixed) {
		say(LOG_NOTICE, "%s: a program wrote as another one left: what it wrote is answered by ERROR", t->path);
		terminal_put(t, "ERROR", 5);
	}
}

static void see_one(struct terminals *ts, const struct inotify_event *e)
{
	for (unsigned i = 0; i < ts->total; i++)
		if (e->mask & IN_Q_OVERFLOW) {
			terminals_renew(ts, &ts->all[i], "is hung up, since too much happened at once");
			ts->all[i].has_left = ts->all[i].is_data;
		} else if (ts->all[i].watch == e->wd)
			see(&ts->all[i], e->mask);
}

/* Whether anybody did anything. */
static bool see_all(struct terminals *ts)
{
	_Alignas(struct inotify_event) char room[4096];
	bool is_any = false;
	ssize_t n;

	while ((n = read(ts->watcher, room, sizeof room)) > 0) {
		is_any = true;
		for (ssize_t at = 0; at < n;) {
			const struct inotify_event *e = (const struct inotify_event *)(const void *)(room + at);

			see_one(ts, e);
			at += (ssize_t)(sizeof *e + e->len);
		}
	}
	return is_any;
}

void terminals_look(struct terminals *ts)
{
	bool is_any = true;

	for (unsigned i = 0; i < ts->total; i++)
		ts->all[i].fresh = 0;
	for (unsigned pass = 0; is_any && pass < PASSES; pass++) {      /* what was seen to be written is read too */
		for (unsigned i = 0; i < ts->total; i++) {
			drain(ts, &ts->all[i]);
			if (ts->all[i].has_left)
				tcflush(ts->all[i].theirs, TCIFLUSH);
		}
		is_any = see_all(ts);
	}
	for (unsigned i = 0; i <= ts->count; i++) {
		struct terminal *t = &ts->all[i];

		if (t->has_left)
			clean(ts, t);
		t->has_left = t->wrote_before = t->wrote_behind = t->read_behind = false;
	}
}

/* ---- Lines ---- */

bool terminal_next_line(struct terminal *t)
{
	size_t at = 0;
	bool is_whole = false;

	if (t->is_waiting || t->text || t->out_length)
		return false;
	while (at < t->in_length && !is_whole) {
		char octet = t->in[at++];

		if (is_line_end(octet))
			is_whole = t->length > 0;
		else if (t->length < COMMAND)
			t->line[t->length++] = octet;
		else
			t->length = COMMAND + 1;
	}
	memmove(t->in, t->in + at, t->in_length - at);
	t->in_length -= at;
	return is_whole;
}

/* Each line of a text stands behind a prompt (27.005, 3.3.1). */
static void put_prompt(struct terminal *t)
{
	terminal_put_raw(t, "\r\n> ", 4);
}

bool terminal_ask_text(struct terminal *t)
{
	t->text = calloc(1, sizeof *t->text);
	if (!t->text)
		return false;
	memcpy(t->text->command, t->line, t->length);
	t->text->command_length = t->length;
	put_prompt(t);
	return true;
}

/* Takes an octet of a text. An LF just behind the command belongs to the command. */
static void take_octet(struct terminal *t, char octet)
{
	struct text *x = t->text;

	if (x->length == 0 && octet == '\n')
		return;
	if (octet == SENDS_TEXT || octet == GIVES_TEXT_UP)
		x->end = octet;
	else if (octet == '\r')
		put_prompt(t);
	if (x->length < TEXT)
		x->octets[x->length] = octet;
	if (x->length <= TEXT)
		x->length++;
}

bool terminal_next_text(struct terminal *t)
{
	size_t at = 0;

	while (t->text && at < t->in_length && !t->text->end)
		take_octet(t, t->in[at++]);
	memmove(t->in, t->in + at, t->in_length - at);
	t->in_length -= at;
	return t->text && t->text->end;
}

/* Gives room for so many octets behind those that wait, which stay; NULL where there is no memory. */
static char *make_room(struct terminal *t, size_t length)
{
	size_t whole = t->out_length + length;

	if (whole > t->out_room) {
		char *more = realloc(t->out, whole * 2);

		if (!more) {
			say(LOG_ERR, "no memory: octets for %s are dropped", t->path);
			return NULL;
		}
		t->out = more;
		t->out_room = whole * 2;
	}
	t->out_length = whole;
	return t->out + whole - length;
}

void terminal_put(struct terminal *t, const char *text, size_t length)
{
	char *room = make_room(t, length + 4);

	if (!room)
		return;
	memcpy(room, "\r\n", 2);
	memcpy(room + 2, text, length);
	memcpy(room + 2 + length, "\r\n", 2);
}

void terminal_put_raw(struct terminal *t, const void *octets, size_t length)
{
	char *room = make_room(t, length);

	if (room)
		memcpy(room, octets, length);
}

size_t terminal_waits(const struct terminal *t)
{
	return t->out_length - t->out_at;
}

/* Turns the echo off: with it, what is written here would come back as if the program had written it. */
static void silence(const struct terminal *t)
{
	struct termios how;

	if (tcgetattr(t->theirs, &how) || !(how.c_lflag & (ECHO | ECHONL)))
		return;
	how.c_lflag &= ~(tcflag_t)(ECHO | ECHOE | ECHOK | ECHONL);
	tcsetattr(t->theirs, TCSANOW, &how);
}

void terminal_write(struct terminal *t)
{
	if (terminal_waits(t))
		silence(t);
	while (t->out_at < t->out_length) {
		ssize_t n = write(t->ours, t->out + t->out_at, t->out_length - t->out_at);

		if (n <= 0)
			return;
		t->out_at += (size_t)n;
	}
	t->out_at = t->out_length = 0;
	if (t->out_room > LARGE) {
		free(t->out);
		t->out = NULL;
		t->out_room = 0;
	}
}
