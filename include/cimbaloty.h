/* cimbaloty.h - drives a cellular modem over one serial line that several users share. It speaks the
 * basic option of the multiplexer of 3GPP TS 27.010, and on each of its connections AT commands
 * (ITU-T V.250, 3GPP TS 27.007). C99, and C++.
 *
 * The library does no I/O: it opens no file, starts no thread, takes no lock, keeps nothing global,
 * reads no clock and calls nothing back. You give it the octets that came, and write those that it
 * gives. You make requests, and each gets a number. Later you take one outcome for each number.
 *
 * This is one round of a program, once the modem answered AT+CMUX=0 by OK (cimbaloty_enter.h):
 *
 *     while ((count = cimbaloty_output(&c, room, sizeof room)) > 0)
 *         write all of them to the line, or cimbaloty_line_lost(&c);
 *     wait for the line, or for one T1;
 *     T1 passed:    cimbaloty_tick(&c);
 *     octets came:  for (at = 0; at < count; at += taken)
 *                       if (cimbaloty_input(&c, octets + at, count - at, &taken) == CIMBALOTY_OUTPUT_FIRST)
 *                           the first loop once more;
 *     while (cimbaloty_poll_outcome(&c, &outcome, text, sizeof text) == CIMBALOTY_OK) ..
 *     while (cimbaloty_poll_line(&c, &line, text, sizeof text) == CIMBALOTY_OK) ..
 *
 * Link with libcimbaloty, which takes memory by malloc (examples/c/memory.c). Or link with libmodem_c.a, define the three
 * functions of memory.c yourself, and add names.c and frames.c where you want them. See docs/C.md. */
#ifndef CIMBALOTY_H
#define CIMBALOTY_H

#include <stdbool.h>
#include <stddef.h>
#include <stdint.h>

#ifdef __cplusplus
extern "C" {
#endif

/* The version of this header: major * 65536 + minor * 256 + patch. */
#define CIMBALOTY_VERSION 0x000100

/* A driver, or none. All zero means none. The fields are the library's: don't read, write or copy them.
 * The struct may be moved in memory between calls. */
struct cimbaloty {
	void *at;
	bool is_open;
};

#ifdef __cplusplus
#define CIMBALOTY_NONE {}
#else
#define CIMBALOTY_NONE { 0 }
#endif

/* What a call returns. A refused call leaves everything as it was, unless its text says otherwise. Only this: where
 * a request, cimbaloty_tick or cimbaloty_line_lost answers FULL, NO_MEMORY or LINE_LOST, frames that had come may have
 * been handled. Then there may be new outcomes, lines and octets for the line. */
enum cimbaloty_status {
	CIMBALOTY_OK = 0,
	CIMBALOTY_NO_MEMORY = 1,    /* an allocation was refused: call again later */
	CIMBALOTY_BAD_N1 = 2,       /* of cimbaloty_new: N1 is 31 to 32767 */
	CIMBALOTY_FULL = 2,         /* of a request: 128 are in hand, or have outcomes not yet polled: poll
	                             * first. Or all numbers are used up. */
	CIMBALOTY_LINE_LOST = 3,    /* of cimbaloty_tick, cimbaloty_line_lost: the line was lost before */
	CIMBALOTY_NO_DRIVER = 16,   /* there is no driver */
	CIMBALOTY_HAS_DRIVER = 17,  /* there is one already */
	CIMBALOTY_BAD_DLCI = 18,    /* a connection is 0 to 61 */
	CIMBALOTY_LONG_PROBE = 19,  /* more than 16 octets */
	CIMBALOTY_BAD_KINDS = 20,   /* a bit of no kind */
	CIMBALOTY_OUTPUT_FIRST = 21,/* write octets to the line first: cimbaloty_output */
	CIMBALOTY_NO_ROOM = 22,     /* the text is longer than the room: the head has its length, it still waits */
	CIMBALOTY_NOTHING = 23,     /* nothing waits */
	CIMBALOTY_HAS_DIALECT = 24, /* there is a dialect already */
	CIMBALOTY_NO_DIALECT = 25,  /* there is none */
	CIMBALOTY_BAD_FORM = 26,    /* not one of enum cimbaloty_form */
	CIMBALOTY_ENTERED = 27,     /* of cimbaloty_enter.h: the modem is in the multiplexer */
	CIMBALOTY_TURNED_DOWN = 28, /* the modem answered, and not by OK */
	CIMBALOTY_SILENT = 29,      /* it didn't answer */
	CIMBALOTY_HAS_ENTRY = 30,   /* there is an entry already */
	CIMBALOTY_NO_ENTRY = 31,    /* there is none */
	CIMBALOTY_NO_AT = 33,       /* a command line begins with AT or at, */
	CIMBALOTY_BAD_OCTET = 34,   /* has the octets 20 to 7E hex alone, */
	CIMBALOTY_TOO_LONG = 35,    /* and is at most 256 octets long */
	CIMBALOTY_TOO_MANY_RULES = 49, /* a dialect has at most 64 rules */
	CIMBALOTY_NO_TEXT = 50,     /* the text of a rule has 1 to 64 octets, */
	CIMBALOTY_LONG_TEXT = 51,
	CIMBALOTY_LINE_END = 52,    /* and neither CR nor LF */
	CIMBALOTY_BAD_NAME = 53,    /* the name of a rule has 1 to 64 octets 21 to 7E hex */
	CIMBALOTY_IS_COMMAND = 54,  /* a line of the rule begins with AT or at, as the echo of a command does */
	CIMBALOTY_AMBIGUOUS = 55    /* some line would both end an answer and be unsolicited */
};

/* How a request ended. */
enum cimbaloty_answer {
	CIMBALOTY_DONE = 1,         /* the command was answered: its lines, the final code last */
	CIMBALOTY_OPENED = 2,       /* the connection is open now */
	CIMBALOTY_SHUT = 3,         /* it is shut now */
	CIMBALOTY_PROBE_BACK = 4,   /* the probe came back */
	CIMBALOTY_STOPPED = 5,      /* the multiplexer has ended: the modem reads plain AT commands again */
	CIMBALOTY_NOT_OPEN = 6,     /* the connection, or connection 0, isn't open */
	CIMBALOTY_ALREADY_OPEN = 7,
	CIMBALOTY_REFUSED = 8,      /* the modem answered the opening by DM, DISC or SABM; or it knows no probes */
	CIMBALOTY_NO_ANSWER = 9,    /* the modem didn't answer by the fourth tick */
	CIMBALOTY_CLOSED = 10,      /* the connection closed before the request was answered */
	CIMBALOTY_CONTROL_CHANNEL = 11, /* connection 0 carries no commands, and isn't closed: stop instead */
	CIMBALOTY_LOST = 12,        /* the line was lost */
	CIMBALOTY_BUSY = 13         /* the connection is being opened, closed or stopped; or a probe waits;
	                             * or the control queue has no room for the request */
};

/* Kinds of unsolicited lines, and their bits in a set of kinds: 1 << (kind - 1). */
enum cimbaloty_kind {
	CIMBALOTY_RING = 1, CIMBALOTY_CRING = 2, CIMBALOTY_CREG = 3, CIMBALOTY_CGREG = 4,
	CIMBALOTY_CGEV = 5, CIMBALOTY_CIEV = 6,
	CIMBALOTY_OTHER = 7,        /* any other line that belongs to no answer */
	CIMBALOTY_OWN = 8           /* the first kind of a dialect; its others follow, up to 71 */
};
#define CIMBALOTY_BIT(kind) ((uint8_t)(1u << ((kind) - 1)))
#define CIMBALOTY_ALL_KINDS ((uint8_t)0x7F)

/* The bit of a kind of a dialect's own in a set of such kinds. */
#define CIMBALOTY_OWN_BIT(kind) (UINT64_C(1) << ((kind) - CIMBALOTY_OWN))
#define CIMBALOTY_ALL_OWN UINT64_MAX

/* The state of a connection. */
enum cimbaloty_channel_state {
	CIMBALOTY_IS_SHUT = 1, CIMBALOTY_IS_OPENING = 2, CIMBALOTY_IS_OPENED = 3,
	CIMBALOTY_IS_CLOSING = 4, CIMBALOTY_IS_STOPPING = 5
};

/* The most requests in hand at a time. The most octets of a line, also in an answer: a longer line is cut. */
#define CIMBALOTY_REQUESTS 128
#define CIMBALOTY_LINE_LENGTH 512

/* An outcome but for its text. A text has no bound: an answer has as many lines as the modem sends, each of at most
 * CIMBALOTY_LINE_LENGTH octets. cimbaloty_peek_outcome says how long the next one is. */
struct cimbaloty_outcome {
	uint64_t number;        /* of the request */
	size_t length;          /* octets of the text: each line, and "\n" behind it; 0 but for CIMBALOTY_DONE */
	size_t lines;
	uint8_t answer;         /* enum cimbaloty_answer */
};

/* An unsolicited line but for its text. */
struct cimbaloty_line {
	size_t length;          /* octets of the text, at most CIMBALOTY_LINE_LENGTH */
	uint8_t dlci;
	uint16_t kind;          /* enum cimbaloty_kind, or a kind of the dialect's own */
};

/* The states of connections as they were last told (enum cimbaloty_channel_state). All zero at first: 0 stands for shut. */
struct cimbaloty_states {
	uint8_t of[62];
};

/* What is left of a driver. */
struct cimbaloty_left {
	size_t requests;        /* requests without an outcome */
	size_t outcomes;        /* outcomes that weren't polled */
	size_t lines;           /* lines that weren't polled */
};

/* How a line of a rule goes on behind the rule's text, with which it begins. */
enum cimbaloty_form {
	CIMBALOTY_LINE = 1,         /* not at all: the text alone */
	CIMBALOTY_PREFIX = 2,       /* in any way */
	CIMBALOTY_QUOTED = 3,       /* by any blanks and a quote */
	CIMBALOTY_REPORT = 4,       /* by any blanks and a digit, and no comma, or a quote behind the first one: +CREG: 1,"00A1" */
	CIMBALOTY_OPEN_REPORT = 5   /* by any blanks and a digit, and no digit behind the first comma: +CEREG: 3,,,,0,11 */
};

/* The codes of a modem: which lines end an answer, and which are unsolicited. All zero means none. The fields are the
 * library's: don't read, write or copy them. The struct may be moved in memory between calls. */
struct cimbaloty_dialect {
	void *at;
	bool is_there;
};

#ifdef __cplusplus
#define CIMBALOTY_DIALECT_NONE {}
#else
#define CIMBALOTY_DIALECT_NONE { 0 }
#endif

/* ---- Begin and end -------------------------------------------------------------------------------- */

/* The version of the library, in the form of CIMBALOTY_VERSION. */
uint32_t cimbaloty_version(void);

/* Makes a driver where there is none. n1: the most octets of information that a frame may have, as AT+CMUX
 * agreed (27.007, 5.7: 31 where it names none). kinds: the set of kinds that are kept
 * for cimbaloty_poll_line; lines of other kinds are dropped. first: the number of the first request. For
 * numbers to go on after a loss of the line, give the last used number plus 1.
 * Refused, by the first of: HAS_DRIVER, BAD_KINDS, BAD_N1, NO_MEMORY; then there is no new one. */
uint8_t cimbaloty_new(struct cimbaloty *c, uint16_t n1, uint8_t kinds, uint64_t first);

/* As cimbaloty_new, for a modem of this dialect. It takes a copy: the dialect stays, and may be freed or changed.
 * own: the set of the dialect's own kinds that are kept too. A bit of no kind does nothing.
 * Refused, by the first of: HAS_DRIVER, BAD_KINDS, BAD_N1, NO_DIALECT, NO_MEMORY; then there is no new one. */
uint8_t cimbaloty_new_with_dialect(struct cimbaloty *c, struct cimbaloty_dialect *d, uint16_t n1, uint8_t kinds,
				   uint64_t own, uint64_t first);

/* Ends the driver, if there is one. Outcomes and lines that weren't polled are gone. */
void cimbaloty_free(struct cimbaloty *c);

/* ---- Time, and the line's end --------------------------------------------------------------------- */

/* One T1 has passed (27.010, 5.7.1: 10 to 2550 ms, 100 by default). An opening or closing without
 * an answer is sent again. At its fourth tick a request other than a command is told NO_ANSWER. No tick
 * ends a command. If ticks come early or late, only the times of repeats and of NO_ANSWER change,
 * and what cimbaloty_waiting_ticks says.
 * Refused: NO_DRIVER; LINE_LOST; NO_MEMORY, after which the tick hasn't passed. */
uint8_t cimbaloty_tick(struct cimbaloty *c);

/* Whether a tick may send something again or give up a request. If not, your timer may sleep, unless you go by
 * cimbaloty_waiting_ticks. */
bool cimbaloty_wants_tick(struct cimbaloty *c);

/* The line has failed or ended. Each request without an outcome is told LOST, and nothing more is sent.
 * To go on, poll what waits, then call cimbaloty_free and cimbaloty_new.
 * Refused: NO_DRIVER; LINE_LOST; NO_MEMORY, after which the line isn't lost: call again. */
uint8_t cimbaloty_line_lost(struct cimbaloty *c);

/* For how many ticks the first command in hand on a connection has waited for the end of its answer. It counts the
 * ticks that you give, also where cimbaloty_wants_tick is false: commands alone want none. The driver gives up no
 * command by itself: where the ticks are too many, cimbaloty_close the connection.
 * Refused: NO_DRIVER, BAD_DLCI, NOTHING where no command of the connection is in hand. Then *ticks is as it was. */
uint8_t cimbaloty_waiting_ticks(struct cimbaloty *c, uint8_t dlci, uint64_t *ticks);

/* The state of a connection (enum cimbaloty_channel_state); 0 where there is no driver or no such connection. */
uint8_t cimbaloty_state(struct cimbaloty *c, uint8_t dlci);

/* ---- Dialects ------------------------------------------------------------------------------------- */

/* Each makes a dialect where there is none. Refused: HAS_DIALECT, NO_MEMORY; then there is no new one.
 *
 * cimbaloty_dialect_new has the standard's codes alone: OK, ERROR and +CME ERROR: end an answer, and the
 * kinds 1 to 6 are unsolicited. cimbaloty_dialect_common has +CMS ERROR: too, and kinds of the names CEREG,
 * C5GREG, CMTI, CDSI, CLIP, CCWA, CTZV and CTZE. cimbaloty_dialect_dialling also has NO CARRIER, BUSY, NO ANSWER
 * and NO DIALTONE. These end an answer; where they come unasked they end that of whatever command waits. */
uint8_t cimbaloty_dialect_new(struct cimbaloty_dialect *d);
uint8_t cimbaloty_dialect_common(struct cimbaloty_dialect *d);
uint8_t cimbaloty_dialect_dialling(struct cimbaloty_dialect *d);

/* Frees the dialect, if there is one. */
void cimbaloty_dialect_free(struct cimbaloty_dialect *d);

/* ---- Requests ------------------------------------------------------------------------------------- */

/* Each request that is taken gets the next number, and one outcome. If it can't be done, its outcome says so
 * (NOT_OPEN, BUSY ..). Refused, in this order: NO_DRIVER; the refusals that the call names; FULL; NO_MEMORY. A
 * refused request has no number and no outcome, and *number is as it was. */

/* Opens a connection. Open 0 first: it is the control channel. Ask for another one only once the outcome of that says OPENED:
 * before, also while 0 is being opened, its outcome is NOT_OPEN. BAD_DLCI. */
uint8_t cimbaloty_open(struct cimbaloty *c, uint8_t dlci, uint64_t *number);

/* Closes a connection. BAD_DLCI. */
uint8_t cimbaloty_close(struct cimbaloty *c, uint8_t dlci, uint64_t *number);

/* Ends the multiplexer. */
uint8_t cimbaloty_stop(struct cimbaloty *c, uint64_t *number);

/* ---- Exports with octets: call the inline functions below instead --------------------------------- */

uint8_t cimbaloty_input_at(struct cimbaloty *c, const uint8_t *octets, size_t length, size_t *taken);
size_t cimbaloty_output_at(struct cimbaloty *c, uint8_t *room, size_t length);
uint8_t cimbaloty_command_at(struct cimbaloty *c, uint8_t dlci, const uint8_t *text, size_t length, uint64_t *number);
uint8_t cimbaloty_probe_at(struct cimbaloty *c, const uint8_t *octets, size_t length, uint64_t *number);
uint8_t cimbaloty_peek_outcome(struct cimbaloty *c, struct cimbaloty_outcome *head);
uint8_t cimbaloty_poll_outcome_at(struct cimbaloty *c, struct cimbaloty_outcome *head, uint8_t *text, size_t room);
uint8_t cimbaloty_peek_line(struct cimbaloty *c, struct cimbaloty_line *head);
uint8_t cimbaloty_poll_line_at(struct cimbaloty *c, struct cimbaloty_line *head, uint8_t *text, size_t room);
uint8_t cimbaloty_poll_state_at(struct cimbaloty *c, uint8_t *told, size_t length, uint8_t *dlci);
uint8_t cimbaloty_finish_at(struct cimbaloty *c, struct cimbaloty_left *left, uint64_t *numbers, size_t room);
uint8_t cimbaloty_dialect_add_final_at(struct cimbaloty_dialect *d, uint8_t form, const uint8_t *text, size_t length);
uint8_t cimbaloty_dialect_add_unsolicited_at(struct cimbaloty_dialect *d, uint8_t form, const uint8_t *text, size_t length,
					     const uint8_t *name, size_t name_length);
uint16_t cimbaloty_dialect_kind_at(struct cimbaloty_dialect *d, const uint8_t *name, size_t length);

/* The exports above need a valid pointer for length 0 too. The inline functions below take NULL there. */

/* Takes octets that came from the line, however they are cut. *taken says how many were taken, from the first
 * on: give the others again. With OK all were taken. With another answer *taken may be less than length, or
 * all of it. Never give again an octet that was taken: none is lost. A frame that couldn't be handled yet is tried by
 * the next call of cimbaloty_output, cimbaloty_tick or cimbaloty_line_lost, and with each request.
 * OUTPUT_FIRST: write octets to the line first. NO_MEMORY. NO_DRIVER: *taken is 0. */
static inline uint8_t cimbaloty_input(struct cimbaloty *c, const uint8_t *octets, size_t length, size_t *taken)
{
	static const uint8_t none = 0;

	return cimbaloty_input_at(c, length ? octets : &none, length, taken);
}

/* Writes the next octets for the line to the front of the room, at most `length`, and says how many. They
 * count as sent from then on: write them all, in order, or call cimbaloty_line_lost. It gives fewer than
 * `length` only where nothing else waits for the line. 0: nothing waits, or there is no driver. The rest of
 * the room stays as it was. It also handles frames that wait from before, and lets the modem send on where
 * cimbaloty_poll_line took lines. Where memory is refused for that, the next call tries again. */
static inline size_t cimbaloty_output(struct cimbaloty *c, uint8_t *room, size_t length)
{
	uint8_t none = 0;

	return cimbaloty_output_at(c, length ? room : &none, length);
}

/* Sends a command line over a connection and reads its answer. The text is without its CR. On one
 * connection commands wait for one another; on different ones they don't.
 * BAD_DLCI; NO_AT, BAD_OCTET, TOO_LONG, the first that holds. */
static inline uint8_t cimbaloty_command(struct cimbaloty *c, uint8_t dlci, const char *text, size_t length, uint64_t *number)
{
	static const uint8_t none = 0;

	return cimbaloty_command_at(c, dlci, length ? (const uint8_t *)text : &none, length, number);
}

/* Has the modem send these octets back, at most 16. It shows whether the modem is alive. LONG_PROBE. */
static inline uint8_t cimbaloty_probe(struct cimbaloty *c, const uint8_t *octets, size_t length, uint64_t *number)
{
	static const uint8_t none = 0;

	return cimbaloty_probe_at(c, length ? octets : &none, length, number);
}

/* ---- Outcomes and unsolicited lines --------------------------------------------------------------- */

/* cimbaloty_peek_outcome shows the head of the first outcome that waits, and leaves the outcome there. It takes
 * no memory. Refused: NO_DRIVER, NOTHING; then the head is as it was. */

/* Takes the first outcome that waits: its head, and its text at the front of the room, without a 0 behind
 * it. It takes no memory. NO_ROOM: the head says how much room the text needs, and the outcome still waits.
 * NO_DRIVER, NOTHING: the head is as it was. The room is written to only with OK. */
static inline uint8_t cimbaloty_poll_outcome(struct cimbaloty *c, struct cimbaloty_outcome *head, char *text, size_t room)
{
	uint8_t none = 0;

	return cimbaloty_poll_outcome_at(c, head, room ? (uint8_t *)text : &none, room);
}

/* cimbaloty_peek_line and cimbaloty_poll_line do the same with the first unsolicited line that waits. Where 256
 * lines of a connection wait, the modem is asked to send nothing more on it until fewer than 128 wait. */
static inline uint8_t cimbaloty_poll_line(struct cimbaloty *c, struct cimbaloty_line *head, char *text, size_t room)
{
	uint8_t none = 0;

	return cimbaloty_poll_line_at(c, head, room ? (uint8_t *)text : &none, room);
}

/* Whether the state of a connection isn't as it was last told. OK: *dlci is the least such connection, and its state stands
 * in *told. The driver opens no connection by itself: where you ask behind each cimbaloty_input, tick and request, you miss
 * none that the modem shut. Refused: NO_DRIVER, NOTHING; then *told and *dlci are as they were. */
static inline uint8_t cimbaloty_poll_state(struct cimbaloty *c, struct cimbaloty_states *told, uint8_t *dlci)
{
	return cimbaloty_poll_state_at(c, told->of, sizeof told->of, dlci);
}

/* Ends the driver as cimbaloty_free does, and says what is left: how many requests have no outcome, and their
 * numbers, as many as there is room for (at most 128 are in hand). It also counts the outcomes and lines that
 * weren't polled; these are gone. NO_DRIVER: left and numbers are as they were. */
static inline uint8_t cimbaloty_finish(struct cimbaloty *c, struct cimbaloty_left *left, uint64_t *numbers, size_t room)
{
	uint64_t none = 0;

	return cimbaloty_finish_at(c, left, room ? numbers : &none, room);
}

/* Adds a rule behind the others: its lines end an answer. form: enum cimbaloty_form.
 * Refused, by the first of: NO_DIALECT, BAD_FORM, TOO_MANY_RULES, NO_TEXT, LONG_TEXT, LINE_END, IS_COMMAND,
 * AMBIGUOUS, NO_MEMORY; then the dialect is as it was. */
static inline uint8_t cimbaloty_dialect_add_final(struct cimbaloty_dialect *d, uint8_t form, const char *text, size_t length)
{
	static const uint8_t none = 0;

	return cimbaloty_dialect_add_final_at(d, form, length ? (const uint8_t *)text : &none, length);
}

/* Adds a rule behind the others: its lines are unsolicited, of the kind of this name. The standard's codes come
 * first, then the first rule that takes the line.
 * Refused as cimbaloty_dialect_add_final is, with BAD_NAME behind LINE_END. */
static inline uint8_t cimbaloty_dialect_add_unsolicited(struct cimbaloty_dialect *d, uint8_t form, const char *text,
							size_t length, const char *name, size_t name_length)
{
	static const uint8_t none = 0;

	return cimbaloty_dialect_add_unsolicited_at(d, form, length ? (const uint8_t *)text : &none, length,
						    name_length ? (const uint8_t *)name : &none, name_length);
}

/* The kind of this name, 8 or more, as cimbaloty_poll_line tells it. 0: no rule has the name, or there is no
 * dialect. */
static inline uint16_t cimbaloty_dialect_kind(struct cimbaloty_dialect *d, const char *name, size_t length)
{
	static const uint8_t none = 0;

	return cimbaloty_dialect_kind_at(d, length ? (const uint8_t *)name : &none, length);
}

/* ---- Beside the driver: in C, tested, and not proved ---------------------------------------------- */

/* Names for messages, those of the constants above without CIMBALOTY_ or CIMBALOTY_IS_: "NO_ANSWER". A kind of a dialect's
 * own is "OWN", and what is none is "?". Number 2 is of two refusals: "FULL or BAD_N1". */
const char *cimbaloty_status_name(unsigned status);
const char *cimbaloty_answer_name(unsigned answer);
const char *cimbaloty_kind_name(unsigned kind);
const char *cimbaloty_state_name(unsigned state);

/* Counts of frames in octets that pass. The driver counts none: give what cimbaloty_input took to one of these, and what
 * cimbaloty_output gave to another. It reads by itself. Behind octets that are no frame it looks for the next flag only
 * from there on, so that of damaged octets it may count fewer frames than the driver reads. */
struct cimbaloty_frames {
	uint64_t whole;         /* frames with the right check octet and both flags, of any length */
	uint64_t bad;           /* what begins as a frame and isn't one */
	uint64_t longer;        /* whole frames of more than N1 octets of information: the driver drops these, and an answer is
	                         * told without what they had. N1 is wrong then */
	uint64_t longer_on;     /* the connections on which such frames came, a bit for each; set it to 0 as you like */
	uint64_t outside;       /* octets outside of frames */
	uint32_t longest;       /* the most octets of information in a whole frame */
	struct {
		uint32_t n1, place, length, seen;
		uint8_t dlci, check, control;
	} inside;               /* where it stands */
};

/* Begins between two frames, and goes on with the counts: all zero at first. */
void cimbaloty_frames_begin(struct cimbaloty_frames *f, uint16_t n1);
void cimbaloty_frames_take(struct cimbaloty_frames *f, const uint8_t *octets, size_t length);

/* ---- What you owe (nothing checks it) ---------------------------------------------------------------
 *
 *  1. A struct cimbaloty begins as CIMBALOTY_NONE, a struct cimbaloty_dialect as CIMBALOTY_DIALECT_NONE. Only
 *     these functions touch them. If one was copied or moved, the old copy isn't used any more.
 *  2. One driver, or one dialect, has one call at a time. Calls may come from different threads where your
 *     lock, the start or join of a thread, or a sequentially consistent atomic puts each behind the one before
 *     it. Two drivers share nothing. A driver shares nothing with the dialect that it was made with.
 *  3. A pointer isn't null, unless its length is 0 as above. It is aligned for its type. It points to as many
 *     values as the length says, and these have been written. Memory that the call writes to overlaps nothing
 *     else that it is given. Lengths are at most PTRDIFF_MAX.
 *  4. The program has rattle_alloc, rattle_realloc and rattle_dealloc, of one allocator, whose blocks are
 *     aligned to each power of two up to 16 that divides their size. They may refuse. No call is made from a
 *     signal handler, nor in the forked child of a process with threads.
 *  5. The octets that cimbaloty_output gives go to the line whole and in order, and no others do while the
 *     multiplexer runs. cimbaloty_input is given the octets that came from the line, in order, each once.
 *
 * ---- What is proved then, of every sequence of calls ------------------------------------------------
 *
 *  No call reads or writes outside of what it is given or owns, uses memory that was freed, divides by zero,
 *  wraps a sum or runs for ever. Each refusal leaves what is said above. From the making of a driver on there is
 *  one history of its requests, frames, outcomes and lines, such that
 *   - the octets that cimbaloty_input took are read as the frames of the history by the rules of 27.010, each
 *     octet once, in order;
 *   - the octets that cimbaloty_output gave, and then those that wait, are the frames that the history sends;
 *   - what leaves on a connection is a prefix of the command lines taken since it opened, each once and in
 *     order, and a command leaves only where the one before it has its final code;
 *   - the requests are those that got a number, in order; the outcomes polled, and then those that wait, are
 *     those of the history, each once and in order: of a command just the lines of its own answer;
 *   - of each kind the unsolicited lines polled, and then those that wait, are those of the history, each once
 *     and in order, and none is part of an answer.
 *  The standard, and then the rules that the dialect had when the driver was made, say which lines are final codes
 *  and which are unsolicited, of which kind. A rule is taken just where no refusal named above holds. No line both
 *  ends an answer and is unsolicited.
 *  The text of an outcome or a line stands at the front of the room as it was kept. Drivers and dialects may be
 *  passed from one thread to another.
 *
 *  Not proved, but tested: that a call succeeds where there is memory; that memory is given back. Not claimed:
 *  any time or speed, that a modem answers, and anything about code in C. */

#ifdef __cplusplus
}
#endif
#endif
