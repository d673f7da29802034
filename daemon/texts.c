/* texts.c - commands that ask for a text behind a prompt. */
#define _GNU_SOURCE
#include "texts.h"
#include <string.h>
#include <strings.h>

/* Where the last command of a line begins: behind its last semicolon, or behind AT (V.250, 5.2.1). */
static size_t last_command(const char *line, size_t length)
{
	const char *mark = memrchr(line, ';', length);

	return mark && mark + 1 < line + length ? (size_t)(mark + 1 - line) : 2;
}

bool texts_are_asked(const char *line, size_t length)
{
	static const char *const names[] = { "+CMGS=", "+CMGW", "+CMGC=" };
	size_t from = last_command(line, length);

	for (size_t i = 0; i < sizeof names / sizeof *names; i++) {
		size_t known = strlen(names[i]);

		if (length >= from + known && !strncasecmp(line + from, names[i], known))
			return line[length - 1] != '?';
	}
	return false;
}
