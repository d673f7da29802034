/* data.c - data beside a driver: data LINE DRIVER DLCI
 *
 * LINE is the tty of a modem in the multiplexer, DRIVER one at whose other end a driver of the multiplexer works as if it were the
 * modem's. Behind a CONNECT line on this connection standard input goes there, and what comes there goes to standard output, until the
 * connection is closed or the modem loses the carrier. It goes on until a tty ends, or until the lane is over and nothing came for a
 * second in all: so what answers the lane's end passes too. */
#define _DEFAULT_SOURCE
#include "cimbaloty_data.h"
#include <fcntl.h>
#include <poll.h>
#include <stdio.h>
#include <stdlib.h>
#include <termios.h>
#include <unistd.h>

enum { LINE, DRIVER, IN, OUT };
enum { PAUSE = 20, PAUSES = 50 };       /* milliseconds in which nothing comes; so many of them once the lane is over */

/* Opens a tty raw, or gives -1. */
static int open_raw(const char *path)
{
	struct termios t;
	int fd = open(path, O_RDWR | O_NOCTTY | O_CLOEXEC);

	if (fd >= 0 && tcgetattr(fd, &t) == 0) {
		cfmakeraw(&t);
		t.c_cflag |= CLOCAL | CREAD;
		tcsetattr(fd, TCSANOW, &t);
	}
	return fd;
}

static bool put(int fd, const uint8_t *octets, size_t count)
{
	for (ssize_t n; count > 0; octets += n, count -= (size_t)n)
		if ((n = write(fd, octets, count)) <= 0)
			return false;
	return true;
}

/* Takes octets of the line to the relay, and those that wait there for the driver on to it. */
static bool from_line(struct cimbaloty_data *d, const int *fd, uint8_t *room, size_t length)
{
	size_t taken;
	ssize_t n = read(fd[LINE], room, length);

	if (n <= 0 || cimbaloty_data_from_line_at(d, room, (size_t)n, &taken) != CIMBALOTY_DATA_OK)
		return false;
	for (size_t count; (count = cimbaloty_data_for_driver_at(d, room, length)) > 0; cimbaloty_data_handed(d, count))
		if (!put(fd[DRIVER], room, count))
			return false;
	return true;
}

/* Writes what the relay has for the line. */
static bool to_line(struct cimbaloty_data *d, const int *fd)
{
	uint8_t room[512];

	for (size_t count; (count = cimbaloty_data_to_line_at(d, room, sizeof room)) > 0;)
		if (!put(fd[LINE], room, count))
			return false;
	return true;
}

/* Takes octets of the driver to the relay, which takes some wherever nothing waits for the line. */
static bool from_driver(struct cimbaloty_data *d, const int *fd, uint8_t *room, size_t length)
{
	ssize_t n = read(fd[DRIVER], room, length);

	for (size_t at = 0; n > 0 && at < (size_t)n; at += cimbaloty_data_from_driver_at(d, room + at, (size_t)n - at))
		if (!to_line(d, fd))
			return false;
	return n > 0;
}

int main(int argc, char **argv)
{
	static uint8_t room[4096], given[4096];
	struct cimbaloty_data d = { 0 };
	struct cimbaloty_data_got got = { 0, false };
	uint8_t dlci = argc == 4 ? (uint8_t)atoi(argv[3]) : 0;
	int fd[4] = { dlci ? open_raw(argv[1]) : -1, dlci ? open_raw(argv[2]) : -1, STDIN_FILENO, STDOUT_FILENO };
	size_t at = 0, end = 0, taken;
	unsigned left = PAUSES;
	bool holds = true;

	if (fd[LINE] < 0 || fd[DRIVER] < 0 || cimbaloty_data_new_at(&d, 512, &dlci, 1) != CIMBALOTY_DATA_OK || cimbaloty_data_begin(&d, dlci, CIMBALOTY_DATA_BY_CONNECT, CIMBALOTY_DATA_UNTIL_CARRIER_LOSS) != CIMBALOTY_DATA_OK) {
		fprintf(stderr, "usage: data LINE DRIVER DLCI\n");
		return 2;
	}
	while (holds && left > 0) {
		struct pollfd p[4] = { { fd[LINE], POLLIN, 0 }, { fd[DRIVER], POLLIN, 0 }, { at == end ? fd[IN] : -1, POLLIN, 0 }, { fd[OUT], POLLOUT, 0 } };

		if (poll(p, 3, at == end || got.is_over ? PAUSE : 1) == 0 && got.is_over)
			left--;
		if (p[LINE].revents)
			holds = from_line(&d, fd, room, sizeof room);
		if (holds && p[DRIVER].revents)
			holds = from_driver(&d, fd, room, sizeof room);
		if (p[IN].revents) {
			ssize_t n = read(fd[IN], given, sizeof given);

			at = 0;
			end = n > 0 ? (size_t)n : 0;
			fd[IN] = n > 0 ? fd[IN] : -1;
		}
		if (at < end && cimbaloty_data_give_at(&d, dlci, given + at, end - at, &taken) == CIMBALOTY_DATA_OK)
			at += taken;
		while (holds && poll(&p[OUT], 1, 0) == 1 && cimbaloty_data_read_at(&d, dlci, room, sizeof room, &got) == CIMBALOTY_DATA_OK && got.count > 0)
			holds = put(fd[OUT], room, got.count);
		holds = holds && to_line(&d, fd);
	}
	cimbaloty_data_free(&d);
	return holds ? 0 : 1;
}
