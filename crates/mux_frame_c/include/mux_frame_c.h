/* Reads octets as frames of 3GPP TS 27.010, basic option, and counts them. C99 and C++. */
#ifndef MUX_FRAME_C_H
#define MUX_FRAME_C_H

#include <stddef.h>
#include <stdint.h>

#ifdef __cplusplus
extern "C" {
#endif

/* How many frames were read, and how many octets their information has in all. */
struct mux_frame_c_counts {
	size_t frames;
	size_t information;
};

enum mux_frame_c_status {
	MUX_FRAME_C_OK = 0,
	MUX_FRAME_C_NO_MEMORY = 2,
	MUX_FRAME_C_BAD_N1 = 3 /* N1 isn't 31 to 32767; checked first */
};

/* Reads octets as frames, as they would come in pieces of 4096, counts what was read, and answers
 * 0. Otherwise it answers 2 or 3 and leaves the counts as they were. N1 is the most octets of
 * information that a frame may have.
 *
 * The caller owes:
 * - `octets` isn't null, also where `length` is 0, and points to `length` octets that have been
 *   written, all of one object, of at most PTRDIFF_MAX octets. They may lie at any address.
 * - `counts` isn't null, lies at an address that is a multiple of the struct's alignment, and
 *   points to counts that have been written.
 * - The octets and the counts don't overlap, and nobody writes either, nor reads the counts, until
 *   the call returns.
 * - The program has rattle_alloc, rattle_realloc and rattle_dealloc, by which memory is taken. What
 *   is taken is given back before the call returns.
 */
uint8_t mux_frame_c_count(uint16_t n1, const uint8_t *octets, size_t length, struct mux_frame_c_counts *counts);

#ifdef __cplusplus
}
#endif

#endif
