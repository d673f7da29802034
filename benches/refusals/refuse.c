/* Loaded before the C library: refuses the allocation or the thread whose number is in REFUSE, counted from 1, and then creates
 * the file that REFUSED names. Where MARKED is set, only those count that come between a line that begins with `> ` and one that
 * begins with `<` on standard output; where THREADS is set, only threads count. */
#define _GNU_SOURCE
#include <dlfcn.h>
#include <errno.h>
#include <fcntl.h>
#include <pthread.h>
#include <stdatomic.h>
#include <stdlib.h>
#include <unistd.h>

static atomic_long count;
static atomic_int between;

ssize_t write(int file, const void *text, size_t size)
{
	static ssize_t (*next)(int, const void *, size_t);
	const char *words = text;

	if (!next)
		next = (ssize_t (*)(int, const void *, size_t)) dlsym(RTLD_NEXT, "write");
	if (file == STDOUT_FILENO && size > 0 && (words[0] == '<' || words[0] == '>'))
		atomic_store(&between, words[0] == '>');
	return next(file, text, size);
}

static int is_refused(void)
{
	static atomic_long which = -1;
	const char *text, *mark;
	int file;

	if (which < 0) {
		text = getenv("REFUSE");
		which = text ? atol(text) : 0;
	}
	if (getenv("MARKED") && !atomic_load(&between))
		return 0;
	if (atomic_fetch_add(&count, 1) + 1 != which)
		return 0;
	mark = getenv("REFUSED");
	file = mark ? creat(mark, 0644) : -1;
	if (file >= 0)
		close(file);
	return 1;
}

static int is_memory_refused(void)
{
	return !getenv("THREADS") && is_refused();
}

void *malloc(size_t size)
{
	static void *(*next)(size_t);

	if (!next)
		next = (void *(*)(size_t)) dlsym(RTLD_NEXT, "malloc");
	return is_memory_refused() ? NULL : next(size);
}

void *realloc(void *block, size_t size)
{
	static void *(*next)(void *, size_t);

	if (!next)
		next = (void *(*)(void *, size_t)) dlsym(RTLD_NEXT, "realloc");
	return is_memory_refused() ? NULL : next(block, size);
}

int pthread_create(pthread_t *thread, const pthread_attr_t *how, void *(*work)(void *), void *with)
{
	static int (*next)(pthread_t *, const pthread_attr_t *, void *(*)(void *), void *);

	if (!next)
		next = (int (*)(pthread_t *, const pthread_attr_t *, void *(*)(void *), void *)) dlsym(RTLD_NEXT, "pthread_create");
	return is_refused() ? EAGAIN : next(thread, how, work, with);
}
