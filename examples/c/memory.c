/* memory.c - the three functions by which the library takes memory, over malloc, realloc and free. On x86-64
 * the toolchain's liblibc_c.a has them too. For another allocator, replace these functions. */
#include <stdbool.h>
#include <stddef.h>
#include <stdlib.h>

/* Whether memory was given, and where. If not, `at` is an address that is of no block. */
struct tried {
	bool ok;
	void *at;
};

struct tried rattle_alloc(size_t size, size_t align);
struct tried rattle_realloc(void *at, size_t kept, size_t size, size_t align);
void rattle_dealloc(void *at);

static struct tried given(void *at)
{
	static char nowhere;
	struct tried t = { at != NULL, at ? at : &nowhere };

	return t;
}

struct tried rattle_alloc(size_t size, size_t align)
{
	return given(malloc(size ? size : align));
}

struct tried rattle_realloc(void *at, size_t kept, size_t size, size_t align)
{
	(void)kept;
	return given(realloc(at, size ? size : align));
}

void rattle_dealloc(void *at)
{
	free(at);
}
