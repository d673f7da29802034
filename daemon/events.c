/* events.c - unsolicited lines, for the terminals that they go to. */
#define _GNU_SOURCE
#include "events.h"
#include "log.h"
#include <stdlib.h>
#include <string.h>

enum { ROOM = 1 << 14 };

bool events_open(struct events *e, struct terminals *ts, const struct options *o)
{
	*e = (struct events){ .terminals = ts, .options = o };
	e->kept = calloc(o->keep + 1, sizeof *e->kept);
	return e->kept != NULL;
}

static bool is_read(const struct events *e, unsigned place)
{
	return e->options->events[place] && e->terminals->all[place].opens > 0;
}

static bool are_read(const struct events *e)
{
	for (unsigned i = 0; i <= e->terminals->count; i++)
		if (is_read(e, i))
			return true;
	return false;
}

bool events_have_room(const struct events *e)
{
	for (unsigned i = 0; i <= e->terminals->count; i++)
		if (is_read(e, i) && terminal_waits(&e->terminals->all[i]) >= ROOM)
			return false;
	return true;
}

static void put_to_all(struct events *e, const char *line, size_t length)
{
	for (unsigned i = 0; i <= e->terminals->count; i++)
		if (is_read(e, i))
			terminal_put(&e->terminals->all[i], line, length);
}

static void drop_first(struct events *e)
{
	free(e->kept[e->first].text);
	e->first = (e->first + 1) % e->options->keep;
	e->count--;
}

/* Keeps a line behind the others; the first goes where there is no room. */
static void keep(struct events *e, const char *line, size_t length)
{
	char *copy = e->options->keep ? malloc(length + 1) : NULL;

	if (!copy || e->count == e->options->keep)
		e->unkept++;
	if (!copy)
		return;
	memcpy(copy, line, length);
	if (e->count == e->options->keep)
		drop_first(e);
	e->kept[(e->first + e->count++) % e->options->keep] = (struct kept){ copy, length };
}

void events_put(struct events *e, const char *line, size_t length)
{
	e->lines++;
	if (are_read(e))
		put_to_all(e, line, length);
	else
		keep(e, line, length);
}

static void say_unkept(struct events *e, const char *when)
{
	if (e->unkept)
		say(LOG_WARNING, "unsolicited lines: %lu weren't kept %s", e->unkept, when);
	e->unkept = 0;
}

void events_look(struct events *e)
{
	if ((e->count == 0 && e->unkept == 0) || !are_read(e))
		return;
	say_unkept(e, "while nobody read them");
	for (; e->count; drop_first(e))
		put_to_all(e, e->kept[e->first].text, e->kept[e->first].length);
}

void events_close(struct events *e)
{
	e->unkept += e->count;
	say_unkept(e, "and never read");
	while (e->count)
		drop_first(e);
	free(e->kept);
}
