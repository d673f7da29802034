/* library.c - the library against the fake modem in one program: refusals, dialects, rooms, cuts, losses, two drivers in
 * two threads, one driver in four, and each allocation refused in turn. Link with -Wl,--wrap=malloc,--wrap=realloc. */
#define _POSIX_C_SOURCE 200809L
#include "pair.h"
#include <pthread.h>

/* ---- Memory ---- */

static _Thread_local long left = -1;    /* allocations until one is refused; none is where it is negative */
void *__real_malloc(size_t size);
void *__real_realloc(void *at, size_t size);
static _Thread_local size_t asked_for;  /* octets, over all allocations */
void *__wrap_malloc(size_t size) { asked_for += size; return left >= 0 && left-- == 0 ? NULL : __real_malloc(size); }
void *__wrap_realloc(void *at, size_t size) { asked_for += size; return left >= 0 && left-- == 0 ? NULL : __real_realloc(at, size); }

/* ---- What is tried ---- */

static void refusals(void)
{
	struct cimbaloty none = CIMBALOTY_NONE, c = CIMBALOTY_NONE;
	struct cimbaloty_outcome o = { 7, 7, 7, 7 };
	struct cimbaloty_line u = { 7, 7, 7 };
	struct cimbaloty_left l = { 7, 7, 7 };
	uint64_t n = 99;
	size_t taken = 99;
	char long_line[258];

	CHECK(cimbaloty_version() == CIMBALOTY_VERSION);
	CHECK(cimbaloty_open(&none, 0, &n) == CIMBALOTY_NO_DRIVER && n == 99);
	CHECK(cimbaloty_close(&none, 99, &n) == CIMBALOTY_NO_DRIVER && cimbaloty_stop(&none, &n) == CIMBALOTY_NO_DRIVER);
	CHECK(cimbaloty_command(&none, 1, NULL, 0, &n) == CIMBALOTY_NO_DRIVER);
	CHECK(cimbaloty_probe(&none, NULL, 0, &n) == CIMBALOTY_NO_DRIVER && n == 99);
	CHECK(cimbaloty_input(&none, (const uint8_t *)"x", 1, &taken) == CIMBALOTY_NO_DRIVER && taken == 0);
	CHECK(cimbaloty_output(&none, NULL, 0) == 0 && cimbaloty_state(&none, 0) == 0);
	CHECK(cimbaloty_tick(&none) == CIMBALOTY_NO_DRIVER && cimbaloty_line_lost(&none) == CIMBALOTY_NO_DRIVER);
	CHECK(!cimbaloty_wants_tick(&none));
	CHECK(cimbaloty_waiting_ticks(&none, 99, &n) == CIMBALOTY_NO_DRIVER && n == 99);
	CHECK(cimbaloty_peek_outcome(&none, &o) == CIMBALOTY_NO_DRIVER && o.number == 7);
	CHECK(cimbaloty_poll_outcome(&none, &o, NULL, 0) == CIMBALOTY_NO_DRIVER && o.number == 7);
	CHECK(cimbaloty_poll_line(&none, &u, NULL, 0) == CIMBALOTY_NO_DRIVER && u.kind == 7);
	CHECK(cimbaloty_finish(&none, &l, NULL, 0) == CIMBALOTY_NO_DRIVER && l.requests == 7);
	CHECK(cimbaloty_new(&c, 30, 0, 1) == CIMBALOTY_BAD_N1 && cimbaloty_new(&c, 32768, 0, 1) == CIMBALOTY_BAD_N1);
	CHECK(cimbaloty_new(&c, 31, 0x80, 1) == CIMBALOTY_BAD_KINDS && cimbaloty_open(&c, 0, &n) == CIMBALOTY_NO_DRIVER);
	CHECK(cimbaloty_new(&c, 31, 0, 7) == CIMBALOTY_OK && cimbaloty_new(&c, 31, 0, 7) == CIMBALOTY_HAS_DRIVER);
	CHECK(cimbaloty_open(&c, 62, &n) == CIMBALOTY_BAD_DLCI && cimbaloty_state(&c, 62) == 0 && n == 99);
	CHECK(cimbaloty_command(&c, 1, NULL, 0, &n) == CIMBALOTY_NO_AT && cimbaloty_command(&c, 1, "X", 1, &n) == CIMBALOTY_NO_AT);
	CHECK(cimbaloty_command(&c, 1, "AT\r", 3, &n) == CIMBALOTY_BAD_OCTET);
	memset(long_line, 'A', sizeof long_line);
	memcpy(long_line, "at", 2);
	CHECK(cimbaloty_command(&c, 1, long_line, 257, &n) == CIMBALOTY_TOO_LONG && n == 99);
	CHECK(cimbaloty_probe(&c, (const uint8_t *)long_line, 17, &n) == CIMBALOTY_LONG_PROBE);
	CHECK(cimbaloty_input(&c, NULL, 0, &taken) == CIMBALOTY_OK && taken == 0);
	CHECK(cimbaloty_peek_outcome(&c, &o) == CIMBALOTY_NOTHING && cimbaloty_poll_line(&c, &u, NULL, 0) == CIMBALOTY_NOTHING);
	CHECK(cimbaloty_command(&c, 1, long_line, 256, &n) == CIMBALOTY_OK && n == 7);
	CHECK(cimbaloty_peek_outcome(&c, &o) == CIMBALOTY_OK && o.number == 7 && o.answer == CIMBALOTY_NOT_OPEN);
	CHECK(cimbaloty_open(&c, 0, &n) == CIMBALOTY_OK && n == 8 && cimbaloty_wants_tick(&c));
	n = 99;
	CHECK(cimbaloty_finish(&c, &l, &n, 1) == CIMBALOTY_OK && l.requests == 1 && l.outcomes == 1 && l.lines == 0 && n == 8);
	CHECK(cimbaloty_tick(&c) == CIMBALOTY_NO_DRIVER);
	cimbaloty_free(&c);
}

static void rooms(void)
{
	struct pair *p = begin(3, 2);
	struct cimbaloty_outcome o;
	struct cimbaloty_line u;
	char text[4096], small[8] = "1234567";
	uint64_t n;

	told(p, 1, CIMBALOTY_OPENED, text, sizeof text);
	opened(p, 1, 2);
	n = asked(p, 1, "AT+LONG=41");
	pump(p);
	CHECK(cimbaloty_poll_outcome(&p->c, &o, small, 7) == CIMBALOTY_NO_ROOM);
	CHECK(o.number == n && o.lines == 42 && !strcmp(small, "1234567"));
	CHECK(cimbaloty_poll_outcome(&p->c, &o, NULL, 0) == CIMBALOTY_NO_ROOM && o.length < sizeof text);
	CHECK(cimbaloty_poll_outcome(&p->c, &o, text, o.length - 1) == CIMBALOTY_NO_ROOM);
	memset(text, 'x', sizeof text);
	CHECK(cimbaloty_poll_outcome(&p->c, &o, text, o.length) == CIMBALOTY_OK && text[o.length] == 'x');
	CHECK(!memcmp(text, "+LONG: 0,", 9) && !memcmp(text + o.length - 4, "\nOK\n", 4));
	CHECK(cimbaloty_poll_outcome(&p->c, &o, text, sizeof text) == CIMBALOTY_NOTHING);
	fake_reports(&p->f, 1, "+CREG: 1,\"00A1\",\"1234\"");
	fake_reports(&p->f, 1, "RING");
	pump(p);
	CHECK(cimbaloty_peek_line(&p->c, &u) == CIMBALOTY_OK && u.kind == CIMBALOTY_CREG && u.dlci == 1 && u.length == 22);
	CHECK(cimbaloty_poll_line(&p->c, &u, text, 21) == CIMBALOTY_NO_ROOM);
	CHECK(cimbaloty_poll_line(&p->c, &u, text, 22) == CIMBALOTY_OK && !memcmp(text, "+CREG: 1,\"00A1\",\"1234\"", 22));
	CHECK(cimbaloty_poll_line(&p->c, &u, text, 4) == CIMBALOTY_OK && u.kind == CIMBALOTY_RING && !memcmp(text, "RING", 4));
	n = asked(p, 1, "AT+BAD");
	pump(p);
	told(p, n, CIMBALOTY_DONE, text, sizeof text);
	CHECK(!strcmp(text, "+CME ERROR: 3\n"));
	CHECK(cimbaloty_probe(&p->c, (const uint8_t *)"alive?", 6, &n) == CIMBALOTY_OK);
	pump(p);
	told(p, n, CIMBALOTY_PROBE_BACK, text, sizeof text);
	CHECK(p->f.probes == 1);
	end(p);
}

/* Commands over two connections, each answered by the modem's own number; says how many rings came. */
static void commands(struct pair *p, unsigned long count)
{
	char text[256], line[32], want[64];
	struct cimbaloty_line u;
	unsigned long rings = 0;

	told(p, 1, CIMBALOTY_OPENED, text, sizeof text);
	opened(p, 1, 2);
	opened(p, 2, 3);
	for (unsigned long i = 0; i < count; i++) {
		uint8_t dlci = (uint8_t)(1 + i % 2);
		uint64_t n;

		snprintf(line, sizeof line, "AT+N=%lu", i);
		n = asked(p, dlci, line);
		CHECK(n == i + 4);
		pump(p);
		told(p, n, CIMBALOTY_DONE, text, sizeof text);
		snprintf(want, sizeof want, "+N: %lu\nOK\n", fake_number(i, dlci));
		CHECK(!strcmp(text, want));
		while (cimbaloty_poll_line(&p->c, &u, text, sizeof text) == CIMBALOTY_OK) {
			CHECK(u.kind == CIMBALOTY_RING && u.length == 4);
			rings++;
		}
	}
	CHECK(p->f.commands == count && rings == p->f.rings && rings == (count + 6) / 7);
}

static void cuts(void)
{
	static const size_t sizes[] = { 1, 2, 3, 7, 11, 4096 };

	for (size_t i = 0; i < sizeof sizes / sizeof *sizes; i++) {
		struct pair *p = begin(sizes[i], sizes[5 - i]);

		commands(p, 300);
		end(p);
	}
}

static void full_and_lost(void)
{
	struct pair *p = begin(4096, 4096);
	char text[64];
	uint64_t n = 0, numbers[3];
	struct cimbaloty_left l;

	told(p, 1, CIMBALOTY_OPENED, text, sizeof text);
	opened(p, 1, 2);
	for (unsigned i = 0; i < CIMBALOTY_REQUESTS; i++)
		CHECK(asked(p, 1, "AT+MUTE") == i + 3);
	CHECK(cimbaloty_command(&p->c, 1, "AT", 2, &n) == CIMBALOTY_FULL && n == 0);
	pump(p);
	CHECK(p->f.commands == 1);
	CHECK(cimbaloty_line_lost(&p->c) == CIMBALOTY_OK && cimbaloty_line_lost(&p->c) == CIMBALOTY_LINE_LOST);
	CHECK(cimbaloty_tick(&p->c) == CIMBALOTY_LINE_LOST && cimbaloty_state(&p->c, 1) == CIMBALOTY_IS_SHUT);
	CHECK(cimbaloty_output(&p->c, (uint8_t *)text, sizeof text) == 0);
	for (unsigned i = 0; i < CIMBALOTY_REQUESTS; i++)
		told(p, i + 3, CIMBALOTY_LOST, text, sizeof text);
	CHECK(cimbaloty_open(&p->c, 0, &n) == CIMBALOTY_OK && n == 131);
	told(p, 131, CIMBALOTY_LOST, text, sizeof text);
	CHECK(cimbaloty_finish(&p->c, &l, numbers, 3) == CIMBALOTY_OK && l.requests == 0 && l.outcomes == 0);
	end(p);
}

static void ticks(void)
{
	struct pair *p = begin(4096, 4096);
	char text[64];
	uint64_t n;

	told(p, 1, CIMBALOTY_OPENED, text, sizeof text);
	CHECK(!cimbaloty_wants_tick(&p->c));
	p->f.is_mute = true;
	CHECK(cimbaloty_open(&p->c, 1, &n) == CIMBALOTY_OK && cimbaloty_state(&p->c, 1) == CIMBALOTY_IS_OPENING);
	for (unsigned i = 0; i < 4; i++) {
		struct cimbaloty_outcome o;

		CHECK(cimbaloty_peek_outcome(&p->c, &o) == CIMBALOTY_NOTHING && cimbaloty_wants_tick(&p->c));
		pump(p);
		CHECK(cimbaloty_tick(&p->c) == CIMBALOTY_OK);
	}
	told(p, n, CIMBALOTY_NO_ANSWER, text, sizeof text);
	CHECK(!cimbaloty_wants_tick(&p->c));
	end(p);
}

/* A command that is never answered waits one tick more at each tick, and those behind it don't; a close ends the wait. */
static void waits(void)
{
	struct pair *p = begin(4096, 4096);
	char text[64];
	uint64_t n, ticks = 99;

	told(p, 1, CIMBALOTY_OPENED, text, sizeof text);
	CHECK(cimbaloty_waiting_ticks(&p->c, 62, &ticks) == CIMBALOTY_BAD_DLCI && ticks == 99);
	opened(p, 1, 2);
	CHECK(cimbaloty_waiting_ticks(&p->c, 1, &ticks) == CIMBALOTY_NOTHING && ticks == 99);
	CHECK(cimbaloty_tick(&p->c) == CIMBALOTY_OK);
	asked(p, 1, "AT+MUTE");
	asked(p, 1, "AT+MUTE");
	pump(p);
	for (uint64_t i = 0; i < 7; i++) {
		CHECK(cimbaloty_waiting_ticks(&p->c, 1, &ticks) == CIMBALOTY_OK && ticks == i);
		CHECK(cimbaloty_tick(&p->c) == CIMBALOTY_OK);
		pump(p);
	}
	CHECK(cimbaloty_waiting_ticks(&p->c, 2, &ticks) == CIMBALOTY_NOTHING && ticks == 6);
	CHECK(cimbaloty_close(&p->c, 1, &n) == CIMBALOTY_OK && n == 5);
	pump(p);
	told(p, 3, CIMBALOTY_CLOSED, text, sizeof text);
	CHECK(cimbaloty_waiting_ticks(&p->c, 1, &ticks) == CIMBALOTY_NOTHING);
	end(p);
}

/* Where 256 lines wait the modem is asked to stop, and to go on once few do, with no call but these. */
static void backlog(void)
{
	struct pair *p = begin(4096, 4096);
	struct cimbaloty_line u;
	char text[64];
	uint8_t octets[64];

	told(p, 1, CIMBALOTY_OPENED, text, sizeof text);
	opened(p, 1, 2);
	for (unsigned i = 0; i < 256; i++) {
		CHECK(p->f.held == 0);
		fake_reports(&p->f, 1, "RING");
		pump(p);
	}
	CHECK(p->f.held == 1);
	for (unsigned i = 0; i < 128; i++)
		CHECK(cimbaloty_poll_line(&p->c, &u, text, sizeof text) == CIMBALOTY_OK);
	CHECK(cimbaloty_output(&p->c, octets, sizeof octets) == 0);
	CHECK(cimbaloty_poll_line(&p->c, &u, text, sizeof text) == CIMBALOTY_OK);
	CHECK(cimbaloty_output(&p->c, octets, sizeof octets) == 10 && octets[4] == 0xE3 && octets[6] == 7 && !(octets[7] & 2));
	end(p);
}

static void *in_a_thread(void *pair)
{
	commands(pair, 500);
	return NULL;
}

static void threads(void)
{
	struct pair *pairs[2] = { begin(7, 5), begin(64, 64) };
	pthread_t ids[2];

	for (int i = 0; i < 2; i++)
		CHECK(!pthread_create(&ids[i], NULL, in_a_thread, pairs[i]));
	for (int i = 0; i < 2; i++) {
		CHECK(!pthread_join(ids[i], NULL));
		end(pairs[i]);
	}
}

/* One driver that four threads pass from one to another under a lock. */
static pthread_mutex_t turn = PTHREAD_MUTEX_INITIALIZER;

static void *in_turn(void *pair)
{
	struct pair *p = pair;
	char text[256], line[32], want[64];

	for (unsigned long i = 1; i <= 100; i += i % 7 == 6 ? 2 : 1) {
		snprintf(line, sizeof line, "AT+N=%lu", i);
		snprintf(want, sizeof want, "+N: %lu\nOK\n", fake_number(i, 1));
		CHECK(!pthread_mutex_lock(&turn));
		uint64_t n = asked(p, 1, line);
		pump(p);
		told(p, n, CIMBALOTY_DONE, text, sizeof text);
		CHECK(!strcmp(text, want));
		CHECK(!pthread_mutex_unlock(&turn));
	}
	return NULL;
}

static void passed(void)
{
	struct pair *p = begin(64, 64);
	pthread_t ids[4];
	char text[8];

	told(p, 1, CIMBALOTY_OPENED, text, sizeof text);
	opened(p, 1, 2);
	for (int i = 0; i < 4; i++)
		CHECK(!pthread_create(&ids[i], NULL, in_turn, p));
	for (int i = 0; i < 4; i++)
		CHECK(!pthread_join(ids[i], NULL));
	CHECK(p->f.commands == 4 * 86 && p->f.rings == 0);
	end(p);
}

/* A run in which the allocation at this place is refused, and what was refused is called again. */
static bool one_refused(long place, unsigned long *refused)
{
	struct pair *p = pair_of(7, 5);
	struct cimbaloty_dialect d = CIMBALOTY_DIALECT_NONE;
	char text[4096];
	uint64_t n;

#define AGAIN(call) while ((call) == CIMBALOTY_NO_MEMORY) p->refused++
	left = place;
	AGAIN(cimbaloty_dialect_common(&d));
	AGAIN(FINAL(&d, CIMBALOTY_LINE, "SEND FAIL"));
	AGAIN(UNSOLICITED(&d, CIMBALOTY_LINE, "RDY", "READY"));
	AGAIN(cimbaloty_new_with_dialect(&p->c, &d, 64, CIMBALOTY_ALL_KINDS, CIMBALOTY_ALL_OWN, 1));
	uint16_t ready = KIND(&d, "READY");
	cimbaloty_dialect_free(&d);
	AGAIN(cimbaloty_open(&p->c, 0, &n));
	pump(p);
	AGAIN(cimbaloty_open(&p->c, 1, &n));
	pump(p);
	AGAIN(cimbaloty_command(&p->c, 1, "AT+LONG=9", 9, &n));
	pump(p);
	fake_reports(&p->f, 1, "RING");
	fake_reports(&p->f, 1, "RDY");
	pump(p);
	AGAIN(cimbaloty_tick(&p->c));
	AGAIN(cimbaloty_close(&p->c, 1, &n));
	pump(p);
	AGAIN(cimbaloty_line_lost(&p->c));
	bool was_refused = left < 0;
	left = -1;
	told(p, 1, CIMBALOTY_OPENED, text, sizeof text);
	told(p, 2, CIMBALOTY_OPENED, text, sizeof text);
	told(p, 3, CIMBALOTY_DONE, text, sizeof text);
	CHECK(!memcmp(text, "+LONG: 0,", 9) && strstr(text, "+LONG: 8,") && strstr(text, "\nOK\n"));
	told(p, 4, CIMBALOTY_SHUT, text, sizeof text);
	struct cimbaloty_line u;
	CHECK(cimbaloty_poll_line(&p->c, &u, text, sizeof text) == CIMBALOTY_OK && u.kind == CIMBALOTY_RING);
	CHECK(cimbaloty_poll_line(&p->c, &u, text, sizeof text) == CIMBALOTY_OK && u.kind == ready && ready == CIMBALOTY_OWN + 8);
	CHECK(p->f.commands == 1 && p->f.openings == 2);
	*refused += p->refused;
	end(p);
	return was_refused;
}

/* How many octets a driver takes when it is made. */
static void memory_of_new(void)
{
	struct cimbaloty c = { 0 };

	asked_for = 0;
	CHECK(cimbaloty_new(&c, 31, 0, 1) == CIMBALOTY_OK);
	printf("library: a driver at N1 31 takes %zu octets when it is made\n", asked_for);
	cimbaloty_free(&c);
}

int main(void)
{
	unsigned long refused = 0;
	long place = 0;

	memory_of_new();
	refusals();
	rules();
	dialects();
	entries();
	rooms();
	cuts();
	full_and_lost();
	ticks();
	waits();
	backlog();
	threads();
	passed();
	while (one_refused(place, &refused))
		place++;
	printf("library: well; %ld allocations refused in turn, %lu calls refused for it\n", place, refused);
	return 0;
}
