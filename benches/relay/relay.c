/* relay.c - data through the relay (cimbaloty_data.h), beside a decoder and an encoder that copy once. benches/relay/run says how.
 * usage: relay in|plain_in|out|sent|plain_out|both N1 FRAMES */
#define _POSIX_C_SOURCE 200809L
#include "cimbaloty_data.h"
#include "plain.h"
#include <stdio.h>
#include <stdlib.h>
#include <string.h>

#define CHECK(fact) do { if (!(fact)) { printf("%s:%d: not so: %s\n", __FILE__, __LINE__, #fact); exit(1); } } while (0)

enum { FLAG = 0xF9, SABM = 0x3F, UA = 0x73, UIH = 0xEF, DLCI = 2, PIECE = 4096 };

static size_t held, most;       /* octets of memory now, and the most there were */
void *__real_malloc(size_t size);
void *__real_realloc(void *at, size_t size);
void __real_free(void *at);

/* Each piece has its size in front of it. */
void *__wrap_malloc(size_t size)
{
	size_t *at = __real_malloc(size + 16);

	CHECK(at);
	*at = size;
	held += size;
	most = held > most ? held : most;
	return (char *)at + 16;
}

void __wrap_free(void *at)
{
	if (!at)
		return;
	held -= *(size_t *)((char *)at - 16);
	__real_free((char *)at - 16);
}

void *__wrap_realloc(void *at, size_t size)
{
	void *other = __wrap_malloc(size);

	if (at) {
		size_t was = *(size_t *)((char *)at - 16);

		memcpy(other, at, was < size ? was : size);
		__wrap_free(at);
	}
	return other;
}

/* Writes a frame, and says how many octets it has (27.010, 5.2.1). */
static size_t frame(uint8_t *to, uint8_t address, uint8_t control, const uint8_t *info, size_t length)
{
	size_t at = 0, head;

	to[at++] = FLAG;
	to[at++] = address;
	to[at++] = control;
	if (length < 128) {
		to[at++] = (uint8_t)(length << 1 | 1);
	} else {
		to[at++] = (uint8_t)(length << 1);
		to[at++] = (uint8_t)(length >> 7);
	}
	head = at - 1;
	memcpy(to + at, info, length);
	at += length;
	to[at++] = plain_check(to + 1, head);
	to[at++] = FLAG;
	return at;
}

static void pass(struct cimbaloty_data *d)
{
	uint8_t room[64];
	size_t count;

	while ((count = cimbaloty_data_for_driver_at(d, room, sizeof room)) > 0)
		cimbaloty_data_handed(d, count);
	while (cimbaloty_data_to_line_at(d, room, sizeof room) > 0)
		;
}

/* A relay for two connections, of which one is open and carries data. */
static void open_relay(struct cimbaloty_data *d, uint16_t n1)
{
	const uint8_t named[] = { DLCI, DLCI + 1 };
	uint8_t room[16];

	CHECK(cimbaloty_data_new_at(d, n1, named, 2) == CIMBALOTY_DATA_OK);
	CHECK(cimbaloty_data_begin(d, DLCI, CIMBALOTY_DATA_AT_ONCE, CIMBALOTY_DATA_UNTIL_CLOSE) == CIMBALOTY_DATA_OK);
	for (uint8_t dlci = 0; dlci <= DLCI; dlci += DLCI) {
		size_t length = frame(room, (uint8_t)(dlci << 2 | 3), SABM, room, 0), taken;

		CHECK(cimbaloty_data_from_driver_at(d, room, length) == length);
		pass(d);
		length = frame(room, (uint8_t)(dlci << 2 | 3), UA, room, 0);
		CHECK(cimbaloty_data_from_line_at(d, room, length, &taken) == CIMBALOTY_DATA_OK && taken == length);
		pass(d);
	}
}

/* What is counted: octets of the line go through the relay, and their data is read. Gives how many octets of data. */
__attribute__((noinline)) size_t carry_in(struct cimbaloty_data *d, const uint8_t *octets, size_t length)
{
	static uint8_t room[PIECE];
	struct cimbaloty_data_got got;
	size_t came = 0, taken;

	for (size_t at = 0; at < length; at += taken) {
		CHECK(cimbaloty_data_from_line_at(d, octets + at, length - at < PIECE ? length - at : PIECE, &taken) == CIMBALOTY_DATA_OK);
		do {
			CHECK(cimbaloty_data_read_at(d, DLCI, room, sizeof room, &got) == CIMBALOTY_DATA_OK);
			came += got.count;
		} while (got.count > 0);
		pass(d);
	}
	return came;
}

/* What is counted: the same by a decoder that copies once. */
__attribute__((noinline)) size_t plain_in(const uint8_t *octets, size_t length, uint16_t n1)
{
	return plain_decode(octets, length, n1).information;
}

/* What is counted: data is given, and its frames are taken for the line. Gives how many octets of frames. */
__attribute__((noinline)) size_t carry_out(struct cimbaloty_data *d, const uint8_t *data, size_t length)
{
	static uint8_t room[PIECE];
	size_t went = 0, taken, count;

	for (size_t at = 0; at < length; at += taken) {
		CHECK(cimbaloty_data_give_at(d, DLCI, data + at, length - at < PIECE ? length - at : PIECE, &taken) == CIMBALOTY_DATA_OK);
		while ((count = cimbaloty_data_to_line_at(d, room, sizeof room)) > 0)
			went += count;
	}
	return went;
}

/* What is counted: data is sent, and goes to the line at once. Gives how many octets of frames. */
__attribute__((noinline)) size_t send_out(struct cimbaloty_data *d, const uint8_t *data, size_t length)
{
	static uint8_t room[PIECE];
	struct cimbaloty_data_sent sent;
	size_t went = 0;

	for (size_t at = 0; at < length; at += sent.taken) {
		CHECK(cimbaloty_data_send_at(d, DLCI, data + at, length - at < PIECE ? length - at : PIECE, room, sizeof room, &sent) == CIMBALOTY_DATA_OK);
		went += sent.count;
	}
	return went;
}

/* What is counted: the same by an encoder that copies once. */
__attribute__((noinline)) size_t plain_out(const uint8_t *data, size_t length, uint16_t n1)
{
	static uint8_t room[1 << 16];
	size_t went = 0;

	for (size_t at = 0; at < length; at += n1)
		went += frame(room, DLCI << 2 | 3, UIH, data + at, length - at < n1 ? length - at : n1);
	return went;
}

int main(int argc, char **argv)
{
	CHECK(argc == 4);
	uint16_t n1 = (uint16_t)atoi(argv[2]);
	size_t frames = (size_t)atoi(argv[3]), total = frames * n1, length = 0;
	uint8_t *data = malloc(total), *line = malloc(total + frames * 8);

	for (size_t at = 0; at < total; at++)
		data[at] = (uint8_t)(at * 7 + at / 251);
	for (size_t at = 0; at < total; at += n1)
		length += frame(line + length, DLCI << 2 | 1, UIH, data + at, n1);
	if (strcmp(argv[1], "plain_in") == 0) {
		CHECK(plain_in(line, length, n1) == total);
	} else if (strcmp(argv[1], "plain_out") == 0) {
		CHECK(plain_out(data, total, n1) > total);
	} else if (strcmp(argv[1], "sent") == 0) {
		struct cimbaloty_data d;

		open_relay(&d, n1);
		CHECK(send_out(&d, data, total) == length);
		cimbaloty_data_free(&d);
	} else {
		struct cimbaloty_data d;
		size_t before = held;

		most = held;
		open_relay(&d, n1);
		if (strcmp(argv[1], "out") != 0)
			CHECK(carry_in(&d, line, length) == total);
		if (strcmp(argv[1], "in") != 0)
			CHECK(carry_out(&d, data, total) > total);
		printf("%zu\n", most - before);
		cimbaloty_data_free(&d);
		CHECK(held == before);
	}
	free(line);
	free(data);
	return 0;
}
