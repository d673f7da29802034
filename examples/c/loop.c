/* loop.c - the loop of a program that drives a modem: loop TTY
 *
 * Each line of standard input is a command on connection 1. Answers go to standard output, and so do unsolicited lines,
 * behind the number of their connection. At the end of input it waits for the answers and ends the multiplexer. */
#include "cimbaloty.h"
#include "line.h"
#include <poll.h>
#include <stdio.h>
#include <string.h>
#include <unistd.h>

/* Prints what there is to tell, and gives how many outcomes that was. A text of more than 64 KiB would wait for ever. */
static unsigned tell(struct cimbaloty *c)
{
	static char text[1 << 16];
	struct cimbaloty_outcome o;
	struct cimbaloty_line u;
	unsigned told = 0;

	while (cimbaloty_poll_line(c, &u, text, sizeof text) == CIMBALOTY_OK)
		printf("%u: %.*s\n", u.dlci, (int)u.length, text);
	for (; cimbaloty_poll_outcome(c, &o, text, sizeof text) == CIMBALOTY_OK; told++)
		printf("%.*s", (int)o.length, text);
	fflush(stdout);
	return told;
}

/* Goes on until the input has ended and the multiplexer too; false where the line failed or a connection isn't open. */
static bool run(struct cimbaloty *c, int fd)
{
	char line[CIMBALOTY_LINE_LENGTH];
	uint64_t number;
	unsigned waiting = 0;           /* requests without an outcome */
	uint8_t next = 0;               /* which connection is to be opened: 0, and then 1 */
	bool is_open = false, is_over = false, is_stopping = false;

	while (waiting > 0 || !is_stopping) {
		if (waiting == 0 && !is_open) {
			if (next == 2 || (next == 1 && cimbaloty_state(c, 0) != CIMBALOTY_IS_OPENED) || cimbaloty_open(c, next++, &number) != CIMBALOTY_OK)
				return false;
			waiting++;
		}
		struct pollfd p[2] = { { fd, POLLIN, 0 }, { is_open && !is_over ? STDIN_FILENO : -1, POLLIN, 0 } };
		if (!line_send(c, fd) || (poll(p, 2, 100) == 0 && cimbaloty_tick(c) != CIMBALOTY_OK) || (p[0].revents && !line_receive(c, fd)))
			return false;
		if (p[1].revents && fgets(line, sizeof line, stdin)) {
			size_t length = strcspn(line, "\r\n");

			if (cimbaloty_command(c, 1, line, length, &number) == CIMBALOTY_OK)
				waiting++;
			else
				printf("refused: %.*s\n", (int)length, line);
		} else if (p[1].revents)
			is_over = true;
		waiting -= tell(c);
		if (is_over && waiting == 0 && !is_stopping)
			is_stopping = cimbaloty_stop(c, &number) == CIMBALOTY_OK && ++waiting;
		is_open = is_stopping || cimbaloty_state(c, 1) == CIMBALOTY_IS_OPENED;
	}
	return true;
}

int main(int argc, char **argv)
{
	struct cimbaloty c = CIMBALOTY_NONE;
	int fd = argc == 2 ? line_open(argv[1]) : -1;

	setvbuf(stdin, NULL, _IONBF, 0);        /* so that poll sees what wasn't read */
	if (fd < 0 || line_enter(fd) != CIMBALOTY_ENTERED || cimbaloty_new(&c, 31, CIMBALOTY_ALL_KINDS, 1) != CIMBALOTY_OK) {
		fprintf(stderr, argc == 2 ? "%s: it isn't opened, or the modem isn't entered\n" : "usage: %s TTY\n", argv[argc == 2]);
		return 2;
	}
	bool holds = run(&c, fd);
	cimbaloty_free(&c);
	close(fd);
	return holds ? 0 : 1;
}
