/* data.c - the relay for data and a driver in one program, with each allocation refused in turn: what passes is the same each time.
 * Then a call that the modem hangs up: DV falls in its MSC, and lines come again.
 * Link with both libraries and -Wl,--wrap=malloc,--wrap=realloc. */
#define _POSIX_C_SOURCE 200809L
#include "cimbaloty.h"
#include "cimbaloty_data.h"
#include <stdio.h>
#include <stdlib.h>
#include <string.h>

#define CHECK(fact) do { if (!(fact)) { printf("%s:%d: not so: %s\n", __FILE__, __LINE__, #fact); exit(1); } } while (0)

enum { N1 = 31, DATA = 9000, ROOM = 1 << 16 };

/* ---- Memory ---- */

static long left = -1;          /* allocations until one is refused; none is where it is negative */
static unsigned long refused;   /* calls that were refused for want of memory */
void *__real_malloc(size_t size);
void *__real_realloc(void *at, size_t size);
void *__wrap_malloc(size_t size) { return left >= 0 && left-- == 0 ? NULL : __real_malloc(size); }
void *__wrap_realloc(void *at, size_t size) { return left >= 0 && left-- == 0 ? NULL : __real_realloc(at, size); }

/* ---- What passes ---- */

struct octets {
	uint8_t at[ROOM];
	size_t length;
};

struct run {
	struct cimbaloty c;
	struct cimbaloty_data d;
	struct octets line, lines, data;        /* what went to the line; lines that the driver told; data that was read */
};

static void put(struct octets *o, const void *octets, size_t length)
{
	CHECK(o->length + length <= ROOM);
	if (length > 0)
		memcpy(o->at + o->length, octets, length);
	o->length += length;
}

/* A frame of the modem's, of at most 127 octets (27.010, 5.2.1). */
static void put_frame(struct octets *o, uint8_t address, uint8_t control, const uint8_t *info, size_t length)
{
	uint8_t head[5] = { 0xF9, address, control, (uint8_t)(length << 1 | 1), 0xFF }, check = 0xFF;

	for (unsigned at = 1; at < 4; at++) {
		check ^= head[at];
		for (unsigned bit = 0; bit < 8; bit++)
			check = (uint8_t)(check >> 1 ^ (check & 1 ? 0xE0 : 0));
	}
	head[4] = (uint8_t)(0xFF - check);
	put(o, head, 4);
	put(o, info, length);
	put(o, head + 4, 1);
	put(o, head, 1);
}

/* All that waits passes: to the driver, from it, and to the line. */
static void pass(struct run *r)
{
	uint8_t room[64];
	size_t count, taken, at;

	while ((count = cimbaloty_data_for_driver_at(&r->d, room, sizeof room)) > 0) {
		refused += cimbaloty_input(&r->c, room, count, &taken) == CIMBALOTY_NO_MEMORY;
		cimbaloty_data_handed(&r->d, taken);
	}
	while ((count = cimbaloty_output(&r->c, room, sizeof room)) > 0)
		for (at = 0; at < count;) {
			uint8_t out[64];
			size_t gone;

			at += cimbaloty_data_from_driver_at(&r->d, room + at, count - at);
			while ((gone = cimbaloty_data_to_line_at(&r->d, out, sizeof out)) > 0)
				put(&r->line, out, gone);
		}
	while ((count = cimbaloty_data_to_line_at(&r->d, room, sizeof room)) > 0)
		put(&r->line, room, count);
}

/* The line gives these octets, and all that they bring passes. */
static void hear(struct run *r, const struct octets *o)
{
	for (size_t at = 0, taken = 0;; at += taken) {
		uint8_t said = cimbaloty_data_from_line_at(&r->d, o->at + at, o->length - at, &taken);

		pass(r);
		if (said == CIMBALOTY_DATA_OK)
			return;
		CHECK(said == CIMBALOTY_DATA_NO_MEMORY);
		refused++;
	}
}

/* A request is made, and once more where memory was refused. */
#define REQUEST(call) do { uint8_t said_ = (call); if (said_ != CIMBALOTY_OK) { CHECK(said_ == CIMBALOTY_NO_MEMORY); refused++; CHECK((call) == CIMBALOTY_OK); } } while (0)

static void take_all(struct run *r)
{
	struct cimbaloty_data_got got;
	struct cimbaloty_line u;
	uint8_t room[100];
	char text[CIMBALOTY_LINE_LENGTH];

	do {
		CHECK(cimbaloty_data_read_at(&r->d, 2, room, sizeof room, &got) == CIMBALOTY_DATA_OK);
		put(&r->data, room, got.count);
	} while (got.count > 0);
	while (cimbaloty_poll_line(&r->c, &u, text, sizeof text) == CIMBALOTY_OK)
		put(&r->lines, text, u.length);
}

/* Data is sent on 2 while nothing else waits: one frame goes at once, and in a room that is too short for one the rest goes in parts. */
static void send(struct run *r, const uint8_t *data)
{
	struct cimbaloty_data_sent sent = { 7, 7 };
	static struct octets want;
	uint8_t room[64];
	size_t before = r->line.length;

	CHECK(cimbaloty_data_send_at(&r->d, 1, data, 69, room, sizeof room, &sent) == CIMBALOTY_DATA_NOT_DATA && sent.taken == 7 && sent.count == 7);
	CHECK(cimbaloty_data_send_at(&r->d, 2, data, 69, room, sizeof room, &sent) == CIMBALOTY_DATA_OK && sent.taken == 31 && sent.count == 37);
	put(&r->line, room, sent.count);
	CHECK(cimbaloty_data_send_at(&r->d, 2, data + 31, 38, room, 20, &sent) == CIMBALOTY_DATA_OK && sent.taken == 38 && sent.count == 20);
	put(&r->line, room, sent.count);
	CHECK(cimbaloty_data_send_at(&r->d, 2, data, 0, room, sizeof room, &sent) == CIMBALOTY_DATA_OK && sent.taken == 0 && sent.count == 17);
	put(&r->line, room, sent.count);
	pass(r);
	want.length = 0;
	put_frame(&want, 2 << 2 | 3, 0xEF, data, 31);
	put_frame(&want, 2 << 2 | 3, 0xEF, data + 31, 31);
	put_frame(&want, 2 << 2 | 3, 0xEF, data + 62, 7);
	CHECK(r->line.length - before == want.length && !memcmp(r->line.at + before, want.at, want.length));
}

/* One conversation: 2 is opened and carries data both ways, and a line comes on 1 in its midst. */
static void converse(struct run *r)
{
	static const uint8_t line[] = "\r\n+CREG: 1\r\n";
	static struct octets o;
	static uint8_t data[DATA];
	uint8_t named[] = { 2 };
	uint64_t number;
	size_t taken, waits;

	for (size_t at = 0; at < DATA; at++)
		data[at] = (uint8_t)(at * 7 + at / 251);
	REQUEST(cimbaloty_data_new_at(&r->d, N1, named, 1));
	REQUEST(cimbaloty_new(&r->c, N1, CIMBALOTY_ALL_KINDS, 1));
	CHECK(cimbaloty_data_begin(&r->d, 2, CIMBALOTY_DATA_AT_ONCE, CIMBALOTY_DATA_UNTIL_CLOSE) == CIMBALOTY_DATA_OK);
	for (uint8_t dlci = 0; dlci < 3; dlci++) {
		REQUEST(cimbaloty_open(&r->c, dlci, &number));
		pass(r);
		o.length = 0;
		put_frame(&o, (uint8_t)(dlci << 2 | 3), 0x73, NULL, 0);
		hear(r, &o);
	}
	o.length = 0;
	for (size_t at = 0; at < DATA; at += 30) {
		put_frame(&o, 2 << 2 | 1, 0xEF, data + at, 30);
		if (at == DATA / 2)
			put_frame(&o, 1 << 2 | 1, 0xEF, line, sizeof line - 1);
	}
	hear(r, &o);
	CHECK(cimbaloty_data_give_at(&r->d, 2, data, 1000, &taken) == CIMBALOTY_DATA_OK && taken == 1000);
	CHECK(cimbaloty_data_to_go_at(&r->d, 2, &waits) == CIMBALOTY_DATA_OK && waits == 1000);
	pass(r);
	CHECK(cimbaloty_data_to_go_at(&r->d, 2, &waits) == CIMBALOTY_DATA_OK && waits == 0);
	send(r, data);
	take_all(r);
	pass(r);
	take_all(r);
	CHECK(r->data.length == DATA && !memcmp(r->data.at, data, DATA));
	CHECK(r->lines.length == 8 && !memcmp(r->lines.at, "+CREG: 1", 8));
	cimbaloty_free(&r->c);
	cimbaloty_data_free(&r->d);
}

/* ---- A call that the modem hangs up ---- */

static void open_to_2(struct run *r)
{
	static struct octets o;
	uint64_t number;

	for (uint8_t dlci = 0; dlci < 3; dlci++) {
		CHECK(cimbaloty_open(&r->c, dlci, &number) == CIMBALOTY_OK);
		pass(r);
		o.length = 0;
		put_frame(&o, (uint8_t)(dlci << 2 | 3), 0x73, NULL, 0);
		hear(r, &o);
	}
}

/* The modem says this on 2, in a frame of its own; or of 2, by an MSC. */
static void say(struct run *r, const char *text)
{
	static struct octets o;

	o.length = 0;
	put_frame(&o, 2 << 2 | 1, 0xEF, (const uint8_t *)text, strlen(text));
	hear(r, &o);
}

static void signal_2(struct run *r, uint8_t signals)
{
	const uint8_t msc[] = { 0xE3, 5, 2 << 2 | 3, signals };
	static struct octets o;

	o.length = 0;
	put_frame(&o, 1, 0xEF, msc, sizeof msc);
	hear(r, &o);
}

/* The lines that the driver told since the last call are this one, or none. */
static void expect_lines(struct run *r, const char *text)
{
	take_all(r);
	CHECK(r->lines.length == strlen(text) && !memcmp(r->lines.at, text, r->lines.length));
	r->lines.length = 0;
}

/* 2 is dialled until the carrier is lost. Its first MSC has DV 0, as many modems' has, and that ends nothing. */
static void hang_up(struct run *r, uint8_t until, bool ends)
{
	const char *sends = "ok", *came = "\r\nNO CARRIER\r\n";
	uint8_t named[] = { 2 };
	size_t taken;

	CHECK(cimbaloty_data_new_at(&r->d, N1, named, 1) == CIMBALOTY_DATA_OK);
	CHECK(cimbaloty_new(&r->c, N1, CIMBALOTY_ALL_KINDS, 1) == CIMBALOTY_OK);
	CHECK(cimbaloty_data_begin(&r->d, 2, CIMBALOTY_DATA_BY_CONNECT, 2) == CIMBALOTY_DATA_BAD_BEGIN);
	CHECK(cimbaloty_data_begin(&r->d, 2, CIMBALOTY_DATA_BY_CONNECT, until) == CIMBALOTY_DATA_OK);
	open_to_2(r);
	signal_2(r, 0x0D);
	signal_2(r, 0x8D);
	signal_2(r, 0x0D);
	say(r, "\r\nCONNECT\r\n");
	expect_lines(r, "CONNECT");
	signal_2(r, 0x0D);
	signal_2(r, 0x8D);
	say(r, came);
	expect_lines(r, "");
	CHECK(r->data.length == strlen(came) && !memcmp(r->data.at, came, r->data.length));
	CHECK(cimbaloty_data_give_at(&r->d, 2, (const uint8_t *)sends, 2, &taken) == CIMBALOTY_DATA_OK && taken == 2);
	signal_2(r, 0x0D);
	say(r, came);
	expect_lines(r, ends ? "NO CARRIER" : "");
	CHECK(r->data.length == (ends ? 1 : 2) * strlen(came));
	CHECK((cimbaloty_data_give_at(&r->d, 2, (const uint8_t *)sends, 2, &taken) == CIMBALOTY_DATA_LINES) == ends);
	cimbaloty_free(&r->c);
	cimbaloty_data_free(&r->d);
}

int main(void)
{
	struct run *first = calloc(1, sizeof *first), *r = calloc(1, sizeof *r);
	long place = 0;

	CHECK(first && r);
	converse(first);
	for (;; place++) {
		memset(r, 0, sizeof *r);
		left = place;
		refused = 0;
		converse(r);
		CHECK(r->line.length == first->line.length && !memcmp(r->line.at, first->line.at, first->line.length));
		if (left >= 0)
			break;
		CHECK(refused > 0);
	}
	left = -1;
	memset(r, 0, sizeof *r);
	hang_up(r, CIMBALOTY_DATA_UNTIL_CARRIER_LOSS, true);
	memset(r, 0, sizeof *r);
	hang_up(r, CIMBALOTY_DATA_UNTIL_CLOSE, false);
	free(first);
	free(r);
	printf("data: %ld allocations refused in turn\n", place);
	return 0;
}
