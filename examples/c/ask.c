/* ask.c - sends one command to a modem and prints the answer: ask TTY COMMAND, as in ask /dev/ttyUSB2 AT+CSQ
 * Status 0: the answer ends with OK. 1: it ends otherwise, or none came. 2: the command wasn't sent. */
#define _POSIX_C_SOURCE 200809L
#include "cimbaloty.h"
#include "line.h"
#include <errno.h>
#include <poll.h>
#include <stdio.h>
#include <stdlib.h>
#include <string.h>
#include <unistd.h>

/* Waits for octets, at most a second, and takes them in; false if the line failed or there is no memory. */
static bool receive(struct cimbaloty *c, int fd)
{
	struct pollfd p = { fd, POLLIN, 0 };

	return poll(&p, 1, 1000) == 0 ? cimbaloty_tick(c) == CIMBALOTY_OK : line_receive(c, fd);
}

/* Waits for the outcome of a request, and prints its text. Gives the answer, or 0 if the line failed or there is
 * no memory. Nothing limits the time of a command. */
static unsigned wait_for(struct cimbaloty *c, int fd, uint64_t number, bool *ok)
{
	struct cimbaloty_outcome o;

	for (;;) {
		if (!line_send(c, fd) || !receive(c, fd))
			return 0;
		while (cimbaloty_peek_outcome(c, &o) == CIMBALOTY_OK) {
			char *text = malloc(o.length + 1);

			if (!text || cimbaloty_poll_outcome(c, &o, text, o.length) != CIMBALOTY_OK) {
				free(text);
				return 0;
			}
			printf("%.*s", (int)o.length, text);
			*ok = o.length >= 3 && !memcmp(text + o.length - 3, "OK\n", 3);
			free(text);
			if (o.number == number)
				return o.answer;
		}
	}
}

int main(int argc, char **argv)
{
	struct cimbaloty c = CIMBALOTY_NONE;
	struct cimbaloty_dialect codes = CIMBALOTY_DIALECT_NONE;
	uint64_t number;
	bool ok = false;
	unsigned said;

	if (argc != 3) {
		fprintf(stderr, "usage: %s TTY COMMAND\n", argv[0]);
		return 2;
	}
	int fd = line_open(argv[1]);
	said = fd < 0 ? CIMBALOTY_LINE_LOST : line_enter(fd);
	if (said != CIMBALOTY_ENTERED) {
		fprintf(stderr, "%s: %s\n", argv[1], fd < 0 ? strerror(errno) : cimbaloty_status_name(said));
		return 2;
	}
	if (cimbaloty_dialect_common(&codes) != CIMBALOTY_OK || cimbaloty_new_with_dialect(&c, &codes, 31, 0, 0, 1) != CIMBALOTY_OK)
		return 2;
	cimbaloty_dialect_free(&codes);
	for (uint8_t dlci = 0; dlci < 2; dlci++)
		if (cimbaloty_open(&c, dlci, &number) != CIMBALOTY_OK || wait_for(&c, fd, number, &ok) != CIMBALOTY_OPENED) {
			fprintf(stderr, "connection %u doesn't open\n", dlci);
			return 2;
		}
	said = cimbaloty_command(&c, 1, argv[2], strlen(argv[2]), &number);
	if (said != CIMBALOTY_OK) {
		fprintf(stderr, "refused: %s\n", cimbaloty_status_name(said));
		return 2;
	}
	said = wait_for(&c, fd, number, &ok);
	bool answered = said == CIMBALOTY_DONE && ok;
	if (said != CIMBALOTY_DONE)
		fprintf(stderr, "no answer: %s\n", cimbaloty_answer_name(said));
	if (cimbaloty_stop(&c, &number) == CIMBALOTY_OK)
		wait_for(&c, fd, number, &ok);
	cimbaloty_free(&c);
	close(fd);
	return answered ? 0 : 1;
}
