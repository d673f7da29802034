/* Loaded before the C library: counts the allocations between a line that begins with `> ` and one that begins with `<`
 * on standard output, and says each count on standard error, and behind it the first line's text. Before the first it says
 * how many allocations came till then. */
#define _GNU_SOURCE
#include <dlfcn.h>
#include <stdatomic.h>
#include <stdio.h>
#include <stdlib.h>
#include <string.h>
#include <unistd.h>

static atomic_long count;
static char calls[256] = "before";

static ssize_t put(int file, const void *text, size_t size)
{
	static ssize_t (*next)(int, const void *, size_t);

	if (!next)
		next = (ssize_t (*)(int, const void *, size_t)) dlsym(RTLD_NEXT, "write");
	return next(file, text, size);
}

static void say(long taken)
{
	char line[320];
	int size = snprintf(line, sizeof line, "%ld %s\n", taken, calls);

	put(STDERR_FILENO, line, size);
}

ssize_t write(int file, const void *text, size_t size)
{
	const char *words = text;
	long taken = atomic_load(&count);
	ssize_t wrote;

	if (file != STDOUT_FILENO || size < 1 || (words[0] != '<' && (size < 2 || words[0] != '>' || words[1] != ' ')))
		return put(file, text, size);
	if (words[0] == '<' || !strcmp(calls, "before"))
		say(taken);
	if (words[0] == '>') {
		size_t most = size - 2 < sizeof calls - 1 ? size - 2 : sizeof calls - 1;

		memcpy(calls, words + 2, most);
		calls[most] = 0;
		calls[strcspn(calls, "\n")] = 0;
	}
	wrote = put(file, text, size);
	atomic_store(&count, 0);
	return wrote;
}

void *malloc(size_t size)
{
	static void *(*next)(size_t);

	if (!next)
		next = (void *(*)(size_t)) dlsym(RTLD_NEXT, "malloc");
	atomic_fetch_add(&count, 1);
	return next(size);
}

void *realloc(void *block, size_t size)
{
	static void *(*next)(void *, size_t);

	if (!next)
		next = (void *(*)(void *, size_t)) dlsym(RTLD_NEXT, "realloc");
	atomic_fetch_add(&count, 1);
	return next(block, size);
}
