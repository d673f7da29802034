/* cimbaloty_enter.h - brings a modem from plain commands into the multiplexer (27.007, 5.7). As cimbaloty.h it does no I/O:
 * octets in, octets out, and the time is yours. What you owe is what cimbaloty.h says, of an entry as of a driver: it begins as
 * CIMBALOTY_ENTRY_NONE, has one call at a time, and may be passed from one thread to another.
 *
 *     said = cimbaloty_enter_begin(&e, "AT+CMUX=0", 9, 31, 2);
 *     while (said == CIMBALOTY_OK) {
 *         while ((count = cimbaloty_enter_output(&e, room, sizeof room)) > 0)
 *             write all of them to the line; until = now + cimbaloty_enter_wait(&e);
 *         wait for the line, or for `until`;
 *         it is there:  said = cimbaloty_enter_time_over(&e);
 *         octets came:  said = cimbaloty_enter_input(&e, octets, count, &taken);
 *     }
 *
 * With ENTERED the modem is in the multiplexer. Make a driver, and give it the octets that weren't taken.
 * Drop what came before you begin (tcflush). */
#ifndef CIMBALOTY_ENTER_H
#define CIMBALOTY_ENTER_H

#include "cimbaloty.h"

#ifdef __cplusplus
extern "C" {
#endif

/* An entry, or none. All zero means none. The fields are the library's: don't read, write or copy them. The struct may be
 * moved in memory between calls. */
struct cimbaloty_entry {
	void *at;
	bool is_there;
};

#ifdef __cplusplus
#define CIMBALOTY_ENTRY_NONE {}
#else
#define CIMBALOTY_ENTRY_NONE { 0 }
#endif

/* These need a valid pointer for length 0 too. The inline functions below take NULL there. */
uint8_t cimbaloty_enter_begin_at(struct cimbaloty_entry *e, const uint8_t *text, size_t length, uint16_t n1, uint8_t again);
size_t cimbaloty_enter_output_at(struct cimbaloty_entry *e, uint8_t *room, size_t length);
uint8_t cimbaloty_enter_input_at(struct cimbaloty_entry *e, const uint8_t *octets, size_t length, size_t *taken);

/* Begins an entry where there is none. text: the command that enters, without its CR, such as AT+CMUX=0; a command before
 * it can have an entry of its own. n1: the N1 that a driver before this one may have had. again: how often the text is
 * sent once more where nothing answers, 0 to 255. Before each time a modem that was left in the multiplexer is told to close
 * down: n1 + 3 flags, which end a frame that was left unfinished; CLD (27.010, 5.4.6.3.3); and a CR, so that to a modem at
 * plain commands it is a line of its own.
 * Refused, by the first of: HAS_ENTRY, BAD_N1, NO_AT, BAD_OCTET, TOO_LONG, NO_MEMORY; then there is no new one. */
static inline uint8_t cimbaloty_enter_begin(struct cimbaloty_entry *e, const char *text, size_t length, uint16_t n1, uint8_t again)
{
	static const uint8_t none = 0;

	return cimbaloty_enter_begin_at(e, length ? (const uint8_t *)text : &none, length, n1, again);
}

/* Writes the next octets for the line to the front of the room, at most `length`, and says how many. It gives fewer only
 * where nothing else is to be sent now. 0: so it is, or there is no entry. The rest of the room stays as it was. */
static inline size_t cimbaloty_enter_output(struct cimbaloty_entry *e, uint8_t *room, size_t length)
{
	uint8_t none = 0;

	return cimbaloty_enter_output_at(e, length ? room : &none, length);
}

/* Takes octets that came from the line. *taken says how many were taken, from the first on. OK: all, and the entry goes on.
 * ENTERED: the last one taken ended the first line that is a final code, and this is OK. TURNED_DOWN: it is another
 * (ERROR, +CME ERROR:). With both the entry is over, and there is none. What comes while the modem has time to close down is
 * taken and dropped. Refused: NO_ENTRY; OUTPUT_FIRST, where octets are still to be given. Then *taken is 0. */
static inline uint8_t cimbaloty_enter_input(struct cimbaloty_entry *e, const uint8_t *octets, size_t length, size_t *taken)
{
	static const uint8_t none = 0;

	return cimbaloty_enter_input_at(e, length ? octets : &none, length, taken);
}

/* For how many milliseconds to wait behind the last octet that was written: 1000 for an answer, 300 where the modem has
 * time to close down. More does no harm, and a slow line needs more where writes don't wait until octets have left (tcdrain).
 * 0: there is no entry. */
uint32_t cimbaloty_enter_wait(struct cimbaloty_entry *e);

/* So long nothing ended the entry. OK: it goes on with what closes down, or with the text again. SILENT: the text isn't to be
 * sent again; the entry is over, and there is none. Refused: NO_ENTRY. */
uint8_t cimbaloty_enter_time_over(struct cimbaloty_entry *e);

/* Gives an entry up, if there is one. */
void cimbaloty_enter_free(struct cimbaloty_entry *e);

/* ---- What is proved, of every sequence of calls, besides what cimbaloty.h says ------------------------
 *
 *  The octets given are the text and CR, and, where the time was over, in turn what closes down and the text and CR again,
 *  each from its beginning, and the next only where cimbaloty_enter_time_over said OK. With ENTERED the last text was given
 *  whole, and the octets taken behind it end with the first line that is a final code, which is OK; with TURNED_DOWN the same
 *  of another code. */

#ifdef __cplusplus
}
#endif
#endif
