/* oFono's reader of the basic option (gatchat/gsm0710.c), fed as its multiplexer feeds it
 * (gatchat/gatmux.c): through a buffer of 4096 octets, where what isn't used up moves to the front. It
 * is of the Debian package ofono, version 1.31-3, whose source is no part of this repository: ./run
 * says how it is given. Where a candidate calls for more than the buffer holds its reading ends for
 * good; here it begins again. */
#include <glib.h>
#include <string.h>

#include "gsm0710.h"
#include "plain.h"

enum { ROOM = 4096 };

/* Counts the frames in the buffer, and answers how many octets are done with. */
static int read_buffer(guint8 *buffer, int used, struct counts *read)
{
	int done = 0, took;
	guint8 dlc, type, *frame;

	do {
		int information = 0;

		frame = NULL;
		took = gsm0710_basic_extract_frame(buffer + done, used - done, &dlc, &type, &frame, &information);
		done += took;
		if (frame) {
			read->frames++;
			read->information += information;
		}
	} while (frame && took > 0);
	return done;
}

/* A full buffer in which nothing is read ends oFono's reading. Here it begins again with an empty one. */
struct counts ofono_decode(const uint8_t *octets, size_t length)
{
	static guint8 buffer[ROOM];
	struct counts read = { 0, 0 };
	size_t used = 0, at = 0;

	while (at < length) {
		size_t take = length - at < ROOM - used ? length - at : ROOM - used;

		memcpy(buffer + used, octets + at, take);
		used += take;
		at += take;
		size_t done = read_buffer(buffer, used, &read);

		used -= done;
		if (used == ROOM)
			used = 0;
		memmove(buffer, buffer + done, used);
	}
	return read;
}
