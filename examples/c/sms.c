/* sms.c - sends one SMS: sms TTY NUMBER TEXT, as in sms /dev/ttyUSB2 +4915112345 "Hello there"
 * The command asks for the text by a prompt (27.005, 3.3.1 and 3.5.1). The relay of cimbaloty_data.h stands between the line and the
 * driver: it holds the text until the prompt has come. Status 0: the modem took the SMS. 1: it didn't. 2: it wasn't asked. */
#define _POSIX_C_SOURCE 200809L
#include "cimbaloty_data.h"
#include "line.h"
#include <poll.h>
#include <stdio.h>
#include <string.h>
#include <unistd.h>

enum { N1 = 31, DLCI = 1, END_OF_TEXT = 0x1A };

struct sms {
	struct cimbaloty c;
	struct cimbaloty_data d;
	int fd;
};

static bool to_line(struct sms *s)
{
	uint8_t room[64];

	for (size_t count; (count = cimbaloty_data_to_line_at(&s->d, room, sizeof room)) > 0;)
		for (size_t at = 0; at < count;) {
			struct pollfd p = { s->fd, POLLOUT, 0 };
			ssize_t n = poll(&p, 1, 5000) == 1 ? write(s->fd, room + at, count - at) : -1;

			if (n <= 0)
				return false;
			at += (size_t)n;
		}
	return true;
}

/* All that waits goes to the driver, from it, and to the line. */
static bool pass(struct sms *s)
{
	uint8_t room[64];
	size_t count, taken;

	while ((count = cimbaloty_data_for_driver_at(&s->d, room, sizeof room)) > 0) {
		if (cimbaloty_input(&s->c, room, count, &taken) == CIMBALOTY_NO_MEMORY)
			return false;
		cimbaloty_data_handed(&s->d, taken);
		if (taken < count)
			break;
	}
	while ((count = cimbaloty_output(&s->c, room, sizeof room)) > 0)
		for (size_t at = 0; at < count; at += cimbaloty_data_from_driver_at(&s->d, room + at, count - at))
			if (!to_line(s))
				return false;
	return to_line(s) && (cimbaloty_data_for_driver_at(&s->d, room, sizeof room) == 0 || pass(s));
}

/* Waits for octets, at most a second, and takes them in; false if the line ended or there is no memory. */
static bool receive(struct sms *s)
{
	struct pollfd p = { s->fd, POLLIN, 0 };
	uint8_t room[256];
	size_t taken;

	if (poll(&p, 1, 1000) == 0)
		return cimbaloty_tick(&s->c) == CIMBALOTY_OK;
	ssize_t n = read(s->fd, room, sizeof room);
	return n > 0 && cimbaloty_data_from_line_at(&s->d, room, (size_t)n, &taken) == CIMBALOTY_DATA_OK;
}

/* Waits for the outcome of a request, and prints its text. Says whether it is this, and an answer's last line OK. */
static bool is_told(struct sms *s, uint64_t number, uint8_t answer)
{
	struct cimbaloty_outcome o;
	char text[4096];

	while (pass(s) && receive(s) && pass(s))
		while (cimbaloty_poll_outcome(&s->c, &o, text, sizeof text) == CIMBALOTY_OK) {
			printf("%.*s", (int)o.length, text);
			if (o.number == number)
				return o.answer == answer && (answer != CIMBALOTY_DONE || (o.length >= 3 && !memcmp(text + o.length - 3, "OK\n", 3)));
		}
	return false;
}

static bool opens(struct sms *s, uint8_t dlci)
{
	uint64_t number;

	return cimbaloty_open(&s->c, dlci, &number) == CIMBALOTY_OK && is_told(s, number, CIMBALOTY_OPENED);
}

static bool asks(struct sms *s, const char *command)
{
	uint64_t number;

	return cimbaloty_command(&s->c, DLCI, command, strlen(command), &number) == CIMBALOTY_OK && is_told(s, number, CIMBALOTY_DONE);
}

/* The lane begins before the command, and has the text: it leaves behind the prompt. */
static bool sends(struct sms *s, const char *to, const char *text)
{
	static const uint8_t end = END_OF_TEXT;
	char command[64];
	size_t taken, last;
	bool is_sent = snprintf(command, sizeof command, "AT+CMGS=\"%s\"", to) < (int)sizeof command
		&& cimbaloty_data_begin(&s->d, DLCI, CIMBALOTY_DATA_BY_PROMPT, CIMBALOTY_DATA_UNTIL_CLOSE) == CIMBALOTY_DATA_OK
		&& cimbaloty_data_give_at(&s->d, DLCI, (const uint8_t *)text, strlen(text), &taken) == CIMBALOTY_DATA_OK && taken == strlen(text)
		&& cimbaloty_data_give_at(&s->d, DLCI, &end, 1, &last) == CIMBALOTY_DATA_OK && last == 1
		&& asks(s, command);

	cimbaloty_data_lines(&s->d, DLCI);
	return is_sent;
}

int main(int argc, char **argv)
{
	struct sms s = { .fd = argc == 4 ? line_open(argv[1]) : -1 };
	struct cimbaloty_dialect codes = CIMBALOTY_DIALECT_NONE;        /* the common one: +CMS ERROR ends an answer */
	const uint8_t dlci = DLCI;
	uint64_t number;

	if (s.fd < 0 || strpbrk(argv[3], "\x1A\x1B\r\n") != NULL) {
		fprintf(stderr, "usage: sms TTY NUMBER TEXT, the text in one line\n");
		return 2;
	}
	if (line_enter(s.fd) != CIMBALOTY_ENTERED || cimbaloty_data_new_at(&s.d, N1, &dlci, 1) != CIMBALOTY_DATA_OK
		|| cimbaloty_dialect_common(&codes) != CIMBALOTY_OK || cimbaloty_new_with_dialect(&s.c, &codes, N1, 0, 0, 1) != CIMBALOTY_OK
		|| !opens(&s, 0) || !opens(&s, DLCI)) {
		fprintf(stderr, "%s: the multiplexer doesn't begin\n", argv[1]);
		return 2;
	}
	bool is_sent = asks(&s, "ATE0") && asks(&s, "AT+CMGF=1") && sends(&s, argv[2], argv[3]);
	if (cimbaloty_stop(&s.c, &number) == CIMBALOTY_OK)
		is_told(&s, number, 0);
	cimbaloty_dialect_free(&codes);
	cimbaloty_free(&s.c);
	cimbaloty_data_free(&s.d);
	close(s.fd);
	return is_sent ? 0 : 1;
}
