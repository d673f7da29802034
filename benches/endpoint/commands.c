/* commands.c - asks commands and takes their answers, by the calls of cimbaloty.h:
 *
 *     commands N1 CONNECTIONS AHEAD LINES LENGTH CUT COUNT
 *
 * opens 0 and CONNECTIONS others at this N1, and asks COUNT times on each: AHEAD commands on each connection before the modem is heard.
 * To each it answers LINES lines of LENGTH octets, and OK. Its octets come in pieces of CUT. At the end it says, on one line: how many
 * outcomes came, how many allocations were made since all were open, and how many octets the driver holds; the latter two where it is
 * compiled with COUNTED, and malloc, realloc and free are wrapped. */
#include "cimbaloty.h"
#include "modem.h"
#include <malloc.h>
#include <stdio.h>
#include <stdlib.h>
#include <string.h>

#define CHECK(fact) do { if (!(fact)) { fprintf(stderr, "%s:%d: not so: %s\n", __FILE__, __LINE__, #fact); exit(1); } } while (0)

enum { PUMPED = 1 << 16 };

static struct modem m;
static struct cimbaloty c;
static unsigned long allocations, outcomes;
static long held;

#ifdef COUNTED
void *__real_malloc(size_t size);
void *__real_realloc(void *at, size_t size);
void __real_free(void *at);

void *__wrap_malloc(size_t size)
{
	void *at = __real_malloc(size);

	allocations++;
	held += (long)malloc_usable_size(at);
	return at;
}

void *__wrap_realloc(void *at, size_t size)
{
	allocations++;
	held -= (long)malloc_usable_size(at);
	at = __real_realloc(at, size);
	held += (long)malloc_usable_size(at);
	return at;
}

void __wrap_free(void *at)
{
	held -= at ? (long)malloc_usable_size(at) : 0;
	__real_free(at);
}
#endif

/* What waits for the modem goes. */
static void send_all(void)
{
	static uint8_t octets[4096];
	size_t count;

	while ((count = cimbaloty_output(&c, octets, sizeof octets)) > 0)
		modem_hears(&m, octets, count);
}

/* What the modem said comes, in pieces, and what that calls for goes. */
static void pump(size_t cut)
{
	static uint8_t octets[MODEM_OUT];
	size_t length, taken;

	send_all();
	while (m.length) {
		memcpy(octets, m.out, length = m.length);
		m.length = 0;
		for (size_t at = 0; at < length; at += taken) {
			size_t some = length - at < cut ? length - at : cut;

			CHECK(cimbaloty_input(&c, octets + at, some, &taken) == CIMBALOTY_OK && taken == some);
		}
		send_all();
	}
}

/* The outcomes that wait are taken; each is of this kind. */
static void take_all(uint8_t answer)
{
	static char text[PUMPED];
	struct cimbaloty_outcome o;

	while (cimbaloty_poll_outcome(&c, &o, text, sizeof text) == CIMBALOTY_OK) {
		CHECK(o.answer == answer && (answer != CIMBALOTY_DONE || o.lines == m.lines + 1));
		outcomes++;
	}
}

static void open_one(unsigned dlci)
{
	uint64_t number;

	CHECK(cimbaloty_open(&c, (uint8_t)dlci, &number) == CIMBALOTY_OK);
	pump(4096);
	take_all(CIMBALOTY_OPENED);
}

int main(int argc, char **argv)
{
	unsigned long words[8] = { 0 };
	uint64_t number;

	CHECK(argc == 8);
	for (int i = 1; i < argc; i++)
		words[i] = strtoul(argv[i], NULL, 10);
	unsigned long connections = words[2], ahead = words[3], length = words[5], cut = words[6], count = words[7];
	char *line = calloc(1, length + 1);

	memcpy(line, "+CSQ: 18,99", length < 11 ? length : 11);
	if (length > 11)
		memset(line + 11, 'x', length - 11);
	m.n1 = words[1], m.lines = words[4], m.line = line;
	CHECK(cimbaloty_new(&c, (uint16_t)m.n1, CIMBALOTY_ALL_KINDS, 1) == CIMBALOTY_OK);
	for (unsigned dlci = 0; dlci <= connections; dlci++)
		open_one(dlci);
	outcomes = allocations = 0;
	for (unsigned long round = 0; round < count; round += ahead) {
		for (unsigned dlci = 1; dlci <= connections; dlci++)
			for (unsigned long i = 0; i < ahead; i++)
				CHECK(cimbaloty_command(&c, (uint8_t)dlci, "AT+CSQ", 6, &number) == CIMBALOTY_OK);
		pump(cut);
		take_all(CIMBALOTY_DONE);
	}
	printf("%lu %lu %ld\n", outcomes, allocations, held);
	cimbaloty_free(&c);
	CHECK(held == 0 || !count);
	free(line);
	return 0;
}
