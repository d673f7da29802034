/* log.c - messages, to standard error or to syslog. */
#define _GNU_SOURCE
#include "log.h"
#include <poll.h>
#include <stdarg.h>
#include <stdio.h>
#include <stdlib.h>
#include <string.h>
#include <time.h>
#include <unistd.h>

enum { RECENT = 16, LONGEST = 512, SECOND = 1000 };

static struct {
	bool to_syslog, to_journal;     /* the journal reads a level from the head of a line */
	int level;
	struct { uint64_t text; int64_t at; } recent[RECENT];   /* what was said last, by a sum of its text */
	unsigned next;
} sink = { .level = LOG_INFO };

int64_t milliseconds(void)
{
	struct timespec t;

	clock_gettime(CLOCK_MONOTONIC, &t);
	return (int64_t)t.tv_sec * 1000 + t.tv_nsec / 1000000;
}

void log_open(bool to_syslog, int level)
{
	sink.to_syslog = to_syslog;
	sink.to_journal = getenv("JOURNAL_STREAM") != NULL;
	sink.level = level;
	if (to_syslog)
		openlog("cimbalotyd", LOG_PID, LOG_DAEMON);
}

/* The sum FNV-1a. */
static uint64_t sum_of(const char *text)
{
	uint64_t sum = 14695981039346656037u;

	for (; *text; text++)
		sum = (sum ^ (unsigned char)*text) * 1099511628211u;
	return sum;
}

/* Whether this text was said less than a second ago. If not, it counts as said now. */
static bool was_just_said(const char *text)
{
	uint64_t sum = sum_of(text);
	int64_t now = milliseconds();

	for (unsigned i = 0; i < RECENT; i++)
		if (sink.recent[i].text == sum && sink.recent[i].at && now - sink.recent[i].at < SECOND)
			return true;
	sink.recent[sink.next].text = sum;
	sink.recent[sink.next].at = now;
	sink.next = (sink.next + 1) % RECENT;
	return false;
}

static void write_line(int level, const char *text)
{
	struct pollfd p = { STDERR_FILENO, POLLOUT, 0 };
	char line[LONGEST + 32], head[8] = "";

	if (sink.to_journal)
		snprintf(head, sizeof head, "<%d>", level);
	int length = snprintf(line, sizeof line, "%scimbalotyd: %s\n", head, text);
	if (poll(&p, 1, 0) != 1 || write(STDERR_FILENO, line, (size_t)length) < 0)
		return;         /* nobody reads it: there is no one to tell */
}

void say(int level, const char *form, ...)
{
	char text[LONGEST];
	va_list values;

	if (level > sink.level)
		return;
	va_start(values, form);
	vsnprintf(text, sizeof text, form, values);
	va_end(values);
	if (was_just_said(text))
		return;
	if (sink.to_syslog)
		syslog(level, "%s", text);
	else
		write_line(level, text);
}
