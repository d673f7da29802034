/* cimbaloty_data.h - data on connections of a multiplexer (3GPP TS 27.010, basic option), beside the AT commands of a driver. It
 * stands between the line and the driver of cimbaloty.h, or any other. C99, and C++.
 *
 * A relay takes the octets of the line and hands the driver all frames but data; it takes the octets of the driver and puts data
 * between its frames. It does no I/O. Up to 8 connections may carry data. On one of them a lane begins by a call, and is over where
 * the connection's opening ends, the line is lost, a call ends it, or, if it was begun so, the modem loses the carrier. This is one
 * round of a program:
 *
 *     octets came:  cimbaloty_data_from_line(&d, octets, count, &taken);
 *     while ((count = cimbaloty_data_for_driver(&d, room, sizeof room)) > 0) {
 *         cimbaloty_input(&c, room, count, &taken);
 *         cimbaloty_data_handed(&d, taken);  and the next loop, where not all was taken
 *     }
 *     while ((count = cimbaloty_output(&c, room, sizeof room)) > 0)
 *         for (at = 0; at < count; at += cimbaloty_data_from_driver(&d, room + at, count - at))
 *             the next loop;
 *     while ((count = cimbaloty_data_to_line(&d, room, sizeof room)) > 0)
 *         write all of them to the line, or cimbaloty_data_lost(&d);
 *
 * Link with libmodem_data_c.a, and the three functions of examples/c/memory.c. */
#ifndef CIMBALOTY_DATA_H
#define CIMBALOTY_DATA_H

#include <stdbool.h>
#include <stddef.h>
#include <stdint.h>

#ifdef __cplusplus
extern "C" {
#endif

/* A relay, or none. All zero means none. The fields are the library's: don't read, write or copy them. The struct may be moved in
 * memory between calls. */
struct cimbaloty_data {
	void *at;
	bool is_open;
};

/* What a call returns. A refused call leaves everything as it was. */
enum cimbaloty_data_status {
	CIMBALOTY_DATA_OK = 0,
	CIMBALOTY_DATA_NO_MEMORY = 1,       /* an allocation was refused */
	CIMBALOTY_DATA_BAD_N1 = 2,          /* N1 is 31 to 32767 */
	CIMBALOTY_DATA_CONTROL_CHANNEL = 3, /* connection 0 carries no data */
	CIMBALOTY_DATA_TWICE = 4,           /* a connection is named twice */
	CIMBALOTY_DATA_TOO_MANY = 5,        /* more than 8 connections */
	CIMBALOTY_DATA_NOT_DATA = 6,        /* the connection wasn't named as one that carries data */
	CIMBALOTY_DATA_UNDER_WAY = 7,       /* a lane is under way on the connection */
	CIMBALOTY_DATA_UNREAD = 8,          /* data of the last lane wasn't read */
	CIMBALOTY_DATA_NOT_OPEN = 9,        /* the connection isn't open */
	CIMBALOTY_DATA_LINES = 10,          /* lines: no lane is under way, or no octet came behind its CONNECT line */
	CIMBALOTY_DATA_NO_RELAY = 16,       /* there is no relay */
	CIMBALOTY_DATA_HAS_RELAY = 17,      /* there is a relay already */
	CIMBALOTY_DATA_BAD_DLCI = 18,       /* a connection is 0 to 61 */
	CIMBALOTY_DATA_BAD_BEGIN = 19       /* how a lane begins is 0 to 2, and until when it lasts 0 or 1 */
};

/* How a lane begins. */
enum cimbaloty_data_how {
	CIMBALOTY_DATA_AT_ONCE = 0,    /* all that comes is data */
	CIMBALOTY_DATA_BY_CONNECT = 1, /* data comes behind the next CONNECT line (V.250, 6.3.1) */
	CIMBALOTY_DATA_BY_PROMPT = 2   /* a text leaves behind the next prompt: `>` and a blank that begin a line (27.005, 3.3.1, 3.5.1) */
};

/* Until when a lane lasts, unless the connection's opening ends, the line is lost or a call ends it before. */
enum cimbaloty_data_until {
	CIMBALOTY_DATA_UNTIL_CLOSE = 0,       /* nothing else ends it */
	CIMBALOTY_DATA_UNTIL_CARRIER_LOSS = 1 /* the modem loses the carrier: DV falls in its MSC (27.010, 5.4.6.3.7) */
};

/* What was read: how many octets, and whether the lane is over and all of its data was read. */
struct cimbaloty_data_got {
	size_t count;
	bool is_over;
};

/* What came of sending: how many octets of data were taken, and how many for the line the room has. */
struct cimbaloty_data_sent {
	size_t taken;
	size_t count;
};

/* The calls. A pointer isn't null, also where its length is 0, and points to as many octets that have been written. */

/* Makes a relay where there is none. These connections may carry data. N1 is the most octets of information that a frame may have. */
uint8_t cimbaloty_data_new_at(struct cimbaloty_data *d, uint16_t n1, const uint8_t *connections, size_t count);

/* Ends the relay, if there is one. */
void cimbaloty_data_free(struct cimbaloty_data *d);

/* A lane of a connection begins, of the opening that there is or else of the next.
 *
 * By a prompt it is for a command that asks for a text, as AT+CMGS. Begin the lane, give the text with the octet that ends it (1A, or
 * 1B to give up), and have the driver send the command. The text leaves once the prompt has come. The prompt goes nowhere; all else that
 * comes goes to the driver, and nothing is data. End the lane where the command has its answer: if that came in place of the prompt,
 * nothing of the text is sent.
 *
 * Until the loss of the carrier: where data is under way, an MSC of the modem with DV 0 ends the lane, as cimbaloty_data_lines does, if
 * the last one before it, of this opening, had DV 1. So NO CARRIER comes to the driver as a line. A DV that falls while the modem
 * dials, or was never 1, ends nothing. */
uint8_t cimbaloty_data_begin(struct cimbaloty_data *d, uint8_t dlci, uint8_t how, uint8_t until);

/* The lane of a connection is over, from the next frame on: lines come and go again. What was given and hasn't left isn't sent. Of a
 * lane by a prompt a `>` may be held back, which may be the prompt's: it goes before the next octets, and the lane is over with these. */
uint8_t cimbaloty_data_lines(struct cimbaloty_data *d, uint8_t dlci);

/* The line was lost: each lane is over. */
void cimbaloty_data_lost(struct cimbaloty_data *d);

/* Data that came, and data to be sent: at most 4096 octets wait to be sent. The modem is asked to send no more where 8192 octets
 * wait to be read, and to go on where fewer than 4096 do or the lane is over. */
uint8_t cimbaloty_data_read_at(struct cimbaloty_data *d, uint8_t dlci, uint8_t *room, size_t length, struct cimbaloty_data_got *got);
uint8_t cimbaloty_data_give_at(struct cimbaloty_data *d, uint8_t dlci, const uint8_t *octets, size_t length, size_t *taken);

/* Data to be sent, and octets for the line, those that wait first, in one call. Where it takes fewer octets than there are, the room has no
 * place for a longest frame more, or 4096 wait: write the room to the line, and call it with the rest. Where nothing is to go before them,
 * the connection may send, and the room has N1 + 7 octets, these octets go into the room as frames, copied once; else it does as
 * cimbaloty_data_give and then cimbaloty_data_to_line. `octets` and `room` don't overlap. */
uint8_t cimbaloty_data_send_at(struct cimbaloty_data *d, uint8_t dlci, const uint8_t *octets, size_t length, uint8_t *room, size_t size,
		struct cimbaloty_data_sent *sent);

/* How many octets of data were given and haven't left. Where the lane is over they aren't sent. */
uint8_t cimbaloty_data_to_go_at(struct cimbaloty_data *d, uint8_t dlci, size_t *count);

/* Octets of the line. Where it wants memory, a frame waits: call it again with the octets behind those taken, or with none. */
uint8_t cimbaloty_data_from_line_at(struct cimbaloty_data *d, const uint8_t *octets, size_t length, size_t *taken);

/* The next octets for the line: the driver's frames first, and none of data while one of these waits. They count as written. A room of
 * N1 + 7 octets and more takes frames of data one behind the other; in a shorter one a frame goes in parts, and costs a copy more. */
size_t cimbaloty_data_to_line_at(struct cimbaloty_data *d, uint8_t *room, size_t length);

/* Octets that the driver gave for the line. It takes some wherever nothing waits for the line. */
size_t cimbaloty_data_from_driver_at(struct cimbaloty_data *d, const uint8_t *octets, size_t length);

/* The octets that wait for the driver. They wait until so many of them were handed to it. */
size_t cimbaloty_data_for_driver_at(struct cimbaloty_data *d, uint8_t *room, size_t length);
void cimbaloty_data_handed(struct cimbaloty_data *d, size_t count);

#ifdef __cplusplus
}
#endif

#endif
