/* Measures the deframer: it decodes buffers through the static library of mux_frame_c, and prints
 * how long that takes for each octet, as a multiple of memchr over the same buffer and beside a
 * plain decoder, and beside oFono's reader where it is linked with that. With the name of a row it goes
 * once over that row's octets, for a count of instructions. ./run builds and runs it.
 *
 * Buffers have 4 MiB, the last three 64 KiB, of UIH frames each between two flags of its own, at N1 4089
 * where nothing else is said. In rows with bad check octets each fourth frame has another one. The
 * deframer is fed at most 4096 octets at a time, and asked for frames until none is at hand; its counts
 * have to be those of the plain decoder. memchr runs once without a hit, which is the speed of memory,
 * and once from flag to flag. A time is the best of 8 slices of at least 4 ms of processor time; the
 * passes take turns, 9 times. The table has the middle ratio, and in brackets how far lowest and highest
 * lie apart. "Blocks" counts takings of memory: one, when the deframer is made. */
#include <stdbool.h>
#include <stdint.h>
#include <stdio.h>
#include <stdlib.h>
#include <string.h>
#include <time.h>

#include "mux_frame_c.h"
#include "plain.h"

enum { FLAG = 0xF9, REPEATS = 9, SLICES = 8 };
#define LEAST 0.004 /* seconds of processor time that a slice takes at least */
#define OCTETS (4u << 20)

/* Memory that is taken, counted: the linker has every malloc and realloc call these. */
static long blocks;
void *__real_malloc(size_t size);
void *__real_realloc(void *block, size_t size);
void *__wrap_malloc(size_t size)
{
	blocks++;
	return __real_malloc(size);
}
void *__wrap_realloc(void *block, size_t size)
{
	blocks++;
	return __real_realloc(block, size);
}

struct buffer {
	const char *name;
	uint16_t n1;
	uint8_t *octets;
	size_t length;
};

/* Each pass goes over all of the buffer once, and answers what it counted. No octet is 0xFE. */
static struct counts scan(const struct buffer *b)
{
	return (struct counts){ memchr(b->octets, 0xFE, b->length) != NULL, 0 };
}

static struct counts each_flag(const struct buffer *b)
{
	struct counts found = { 0, 0 };
	const uint8_t *at = b->octets, *end = at + b->length;

	while (at < end && (at = memchr(at, FLAG, end - at))) {
		found.frames++;
		at++;
	}
	return found;
}

static struct counts deframe(const struct buffer *b)
{
	struct mux_frame_c_counts read = { 0, 0 };

	if (mux_frame_c_count(b->n1, b->octets, b->length, &read) != MUX_FRAME_C_OK) {
		fputs("no memory\n", stderr);
		exit(1);
	}
	return (struct counts){ read.frames, read.information };
}

static struct counts plain(const struct buffer *b)
{
	return plain_decode(b->octets, b->length, b->n1);
}

#ifdef OFONO
struct counts ofono_decode(const uint8_t *octets, size_t length);

static struct counts ofono(const struct buffer *b)
{
	return ofono_decode(b->octets, b->length);
}
enum { SCAN, FLAGS, DEFRAME, PLAIN, PEER, PASSES };
static struct counts (*const passes[PASSES])(const struct buffer *) = { scan, each_flag, deframe, plain, ofono };
#else
enum { SCAN, FLAGS, DEFRAME, PLAIN, PASSES };
static struct counts (*const passes[PASSES])(const struct buffer *) = { scan, each_flag, deframe, plain };
#endif

/* A random octet other than 0xFE; the same ones come in each run. */
static uint8_t octet_of(uint64_t *seed)
{
	*seed ^= *seed << 13;
	*seed ^= *seed >> 7;
	*seed ^= *seed << 17;
	return (*seed >> 32 & 0xFF) == 0xFE ? 0 : *seed >> 32 & 0xFF;
}

static void fill_random(struct buffer *b)
{
	uint64_t seed = 27010;

	for (size_t i = 0; i < b->length; i++)
		b->octets[i] = octet_of(&seed);
}

static void fill_with(struct buffer *b, const char *text, size_t length)
{
	for (size_t i = 0; i < b->length; i++)
		b->octets[i] = text[i % length];
}

/* UIH frames of `info` octets, each between two flags of its own, on connections 1 to 8. */
static void fill_frames(struct buffer *b, size_t info)
{
	static const char text[] = "\r\n+CREG: 1,\"00A1\",\"01B2C3D4\",7\r\n";
	size_t size = info + (info < 128 ? 6 : 7), frames = b->length / size;
	uint8_t *at = b->octets;

	b->length = frames * size;
	for (size_t k = 0; k < frames; k++) {
		uint8_t *head = at + 1;
		size_t heads = 3;

		*at++ = FLAG;
		*at++ = (k % 8 + 1) << 2 | 1;
		*at++ = 0xEF;
		*at++ = info < 128 ? info << 1 | 1 : info % 128 << 1;
		if (info >= 128) {
			*at++ = info / 128;
			heads = 4;
		}
		for (size_t i = 0; i < info; i++)
			*at++ = text[i % (sizeof text - 1)];
		*at++ = plain_check(head, heads);
		*at++ = FLAG;
	}
}

/* One octet in a hundred is another one. */
static void damage(struct buffer *b)
{
	uint64_t seed = 5;

	for (size_t i = 0; i < b->length; i += 1 + octet_of(&seed) % 200)
		b->octets[i] = octet_of(&seed);
}

/* The check octet of each fourth frame is another one. */
static void spoil(struct buffer *b, size_t info)
{
	size_t size = info + 6;

	for (size_t check = info + 4; check < b->length; check += 4 * size)
		b->octets[check] ^= b->octets[check] == (FLAG ^ 1) ? 2 : 1;
}

static double now(void)
{
	struct timespec t;

	clock_gettime(CLOCK_PROCESS_CPUTIME_ID, &t);
	return t.tv_sec + t.tv_nsec * 1e-9;
}

/* The seconds of one pass: the best of some slices, each of many passes. */
static double seconds_of(const struct buffer *b, int pass, const struct counts *wanted)
{
	double best = 1e9;

	for (int slice = 0; slice < SLICES; slice++) {
		double start = now(), took;
		long times = 0;

		do {
			struct counts got = passes[pass](b);

			if (got.frames != wanted->frames || got.information != wanted->information) {
				fprintf(stderr, "%s: a pass has counted otherwise\n", b->name);
				exit(1);
			}
			times++;
			took = now() - start;
		} while (took < LEAST);
		if (took / times < best)
			best = took / times;
	}
	return best;
}

static int by_value(const void *a, const void *b)
{
	double x = *(const double *)a, y = *(const double *)b;

	return (x > y) - (x < y);
}

struct middle {
	double value, spread; /* the spread in per cent of the value */
};

static struct middle middle_of(double *x)
{
	qsort(x, REPEATS, sizeof *x, by_value);
	return (struct middle){ x[REPEATS / 2], 100 * (x[REPEATS - 1] - x[0]) / x[REPEATS / 2] };
}

/* The passes take turns within each repeat, so each repeat has its own ratios, all under the same
 * noise. */
static void time_passes(const struct buffer *b, const struct counts *wanted, double seconds[PASSES][REPEATS])
{
	for (int r = -1; r < REPEATS; r++) /* the first warms up */
		for (int pass = 0; pass < PASSES; pass++) {
			double took = seconds_of(b, pass, &wanted[pass]);

			if (r >= 0)
				seconds[pass][r] = took;
		}
}

/* One pass's time as a multiple of another's. */
static struct middle ratio(double seconds[PASSES][REPEATS], int pass, int other)
{
	double each[REPEATS];

	for (int r = 0; r < REPEATS; r++)
		each[r] = seconds[pass][r] / seconds[other][r];
	return middle_of(each);
}

/* One row. */
static void measure(const struct buffer *b)
{
	double seconds[PASSES][REPEATS];
	struct counts wanted[PASSES];

	for (int pass = 0; pass < PASSES; pass++)
		wanted[pass] = passes[pass](b);
	wanted[DEFRAME] = wanted[PLAIN]; /* the two decoders read the same */
	blocks = 0;
	deframe(b);
	long taken = blocks;

	time_passes(b, wanted, seconds);
	struct middle scan = ratio(seconds, DEFRAME, SCAN), flags = ratio(seconds, DEFRAME, FLAGS);
	struct middle plain = ratio(seconds, PLAIN, DEFRAME);
#ifdef OFONO
	struct middle peer = ratio(seconds, DEFRAME, PEER);
#endif
	printf("| %s | %zu | %.0f | %.1f (%.0f%%) | %.2f (%.0f%%) | %.1f (%.0f%%) | %ld |", b->name,
	       wanted[DEFRAME].frames, b->length / middle_of(seconds[DEFRAME]).value / 1e6, scan.value, scan.spread,
	       flags.value, flags.spread, plain.value, plain.spread, taken);
#ifdef OFONO
	printf(" %.2f (%.0f%%) | %zu |", peer.value, peer.spread, wanted[PEER].frames);
#endif
	putchar('\n');
	fflush(stdout);
}

/* The deframer once over this row, and oFono's reader, each of which can be counted by itself: how many frames and octets it is. */
static void go_once(const struct buffer *b)
{
	struct counts read = deframe(b);

	printf("%zu %zu\n", read.frames, b->length);
#ifdef OFONO
	ofono(b);
#endif
}

/* The row that is gone over once, or none: all are measured. */
static const char *only;

static void take_row(const struct buffer *b)
{
	if (!only)
		measure(b);
	else if (strcmp(only, b->name) == 0)
		go_once(b);
}

enum { LONG = 4089 }; /* an N1 with which candidates are up to 4096 octets long */

static void print_head(void)
{
	printf("| Octets | Frames | MB/s | Time over memchr, no hit | Time over memchr, each flag | Plain decoder's time over it | Blocks |");
#ifdef OFONO
	printf(" Time over oFono's | Frames of oFono |");
#endif
	printf("\n|---|---|---|---|---|---|---|");
#ifdef OFONO
	printf("---|---|");
#endif
	putchar('\n');
}

static uint8_t octets[OCTETS];

static void measure_frames(void)
{
	enum damage { NONE, ANY, CHECK };
	static const struct { const char *name; uint16_t n1; int info; enum damage damage; } rows[] = {
		{ "frames of 0", LONG, 0, NONE },
		{ "frames of 31", LONG, 31, NONE },
		{ "frames of 127", LONG, 127, NONE },
		{ "frames of 0, N1 31", 31, 0, NONE },
		{ "frames of 31, N1 31", 31, 31, NONE },
		{ "frames of 127, N1 127", 127, 127, NONE },
		{ "frames of 31, damaged", LONG, 31, ANY },
		{ "frames of 31, damaged, N1 31", 31, 31, ANY },
		{ "frames of 31, bad check octets", LONG, 31, CHECK },
		{ "frames of 31, bad check octets, N1 31", 31, 31, CHECK },
		{ "frames of 127, bad check octets, N1 127", 127, 127, CHECK },
	};

	for (size_t k = 0; k < sizeof rows / sizeof *rows; k++) {
		struct buffer b = { rows[k].name, rows[k].n1, octets, OCTETS };

		fill_frames(&b, rows[k].info);
		if (rows[k].damage == ANY)
			damage(&b);
		else if (rows[k].damage == CHECK)
			spoil(&b, rows[k].info);
		take_row(&b);
	}
}

static void measure_random(void)
{
	static const struct { const char *name; uint16_t n1; bool flags; } rows[] = {
		{ "random", LONG, true },
		{ "random, N1 31", 31, true },
		{ "random without flags, N1 31", 31, false },
	};

	for (size_t k = 0; k < sizeof rows / sizeof *rows; k++) {
		struct buffer b = { rows[k].name, rows[k].n1, octets, OCTETS };

		fill_random(&b);
		for (size_t i = 0; i < b.length && !rows[k].flags; i++)
			if (octets[i] == FLAG)
				octets[i] = 0;
		take_row(&b);
	}
}

/* The plain decoder goes over these again and again, so they are shorter. */
static void measure_hostile(void)
{
	static const struct { const char *name, *text; size_t length; } rows[] = {
		{ "flags alone", "\xF9", 1 },
		{ "F9 05 EF alone", "\xF9\x05\xEF", 3 },
		{ "F9 05 EF 00 1E alone", "\xF9\x05\xEF\x00\x1E", 5 }, /* each calls for 3840 octets */
	};

	for (size_t k = 0; k < sizeof rows / sizeof *rows; k++) {
		struct buffer b = { rows[k].name, LONG, octets, OCTETS / 64 };

		fill_with(&b, rows[k].text, rows[k].length);
		take_row(&b);
	}
}

int main(int count, char **words)
{
	only = count > 1 ? words[1] : NULL;
	if (!only)
		print_head();
	measure_frames();
	measure_random();
	measure_hostile();
	return 0;
}
