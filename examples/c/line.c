/* line.c - a modem's tty: opened raw, brought into the multiplexer, and what passes on it. */
#define _DEFAULT_SOURCE
#include "line.h"
#include "cimbaloty_enter.h"
#include <errno.h>
#include <fcntl.h>
#include <poll.h>
#include <termios.h>
#include <time.h>
#include <unistd.h>

int line_open(const char *path)
{
	struct termios t;
	int fd = open(path, O_RDWR | O_NOCTTY | O_NONBLOCK | O_CLOEXEC);

	if (fd < 0)
		return -1;
	if (tcgetattr(fd, &t) == 0) {
		cfmakeraw(&t);
		t.c_cflag |= CLOCAL | CREAD;
		t.c_cc[VMIN] = 1;
		t.c_cc[VTIME] = 0;
		cfsetispeed(&t, B115200);
		cfsetospeed(&t, B115200);
		if (tcsetattr(fd, TCSANOW, &t) == 0)
			return fd;
	}
	int why = errno;
	close(fd);
	errno = why;
	return -1;
}

static long milliseconds(void)
{
	struct timespec t;

	clock_gettime(CLOCK_MONOTONIC, &t);
	return (long)t.tv_sec * 1000 + t.tv_nsec / 1000000;
}

/* Writes all; false if the line failed, or took nothing for 5 s. */
static bool write_all(int fd, const uint8_t *octets, size_t count)
{
	for (size_t at = 0; at < count;) {
		struct pollfd p = { fd, POLLOUT, 0 };
		ssize_t n = write(fd, octets + at, count - at);

		if (n > 0)
			at += (size_t)n;
		else if (errno != EAGAIN || poll(&p, 1, 5000) != 1)
			return false;
	}
	return true;
}

/* Writes what the entry gives; false if the line failed. */
static bool send_entry(struct cimbaloty_entry *e, int fd, long *until)
{
	uint8_t room[64];
	size_t count;

	while ((count = cimbaloty_enter_output(e, room, sizeof room)) > 0) {
		if (!write_all(fd, room, count))
			return false;
		*until = milliseconds() + (long)cimbaloty_enter_wait(e);
	}
	return true;
}

/* Waits for an octet, and takes it in. It reads one at a time, so that those behind the answer stay on the line. */
static uint8_t go_on(struct cimbaloty_entry *e, int fd, long until)
{
	struct pollfd p = { fd, POLLIN, 0 };
	long left = until - milliseconds();
	size_t taken;
	uint8_t octet;

	if (left <= 0 || poll(&p, 1, (int)left) == 0)
		return cimbaloty_enter_time_over(e);
	ssize_t n = read(fd, &octet, 1);
	if (n == 1)
		return cimbaloty_enter_input(e, &octet, 1, &taken);
	return n < 0 && (errno == EAGAIN || errno == EINTR) ? CIMBALOTY_OK : CIMBALOTY_LINE_LOST;
}

uint8_t line_enter(int fd)
{
	static const char text[] = "AT+CMUX=0";
	struct cimbaloty_entry e = CIMBALOTY_ENTRY_NONE;
	long until = 0;

	tcflush(fd, TCIFLUSH);
	uint8_t said = cimbaloty_enter_begin(&e, text, sizeof text - 1, 31, 2);
	while (said == CIMBALOTY_OK)
		said = send_entry(&e, fd, &until) ? go_on(&e, fd, until) : CIMBALOTY_LINE_LOST;
	cimbaloty_enter_free(&e);
	return said;
}

bool line_send(struct cimbaloty *c, int fd)
{
	uint8_t room[256];
	size_t count;

	while ((count = cimbaloty_output(c, room, sizeof room)) > 0)
		if (!write_all(fd, room, count))
			return false;
	return true;
}

bool line_receive(struct cimbaloty *c, int fd)
{
	uint8_t octets[512];
	size_t taken;
	ssize_t count = read(fd, octets, sizeof octets);

	if (count <= 0)
		return count < 0 && (errno == EAGAIN || errno == EINTR);
	for (size_t at = 0; at < (size_t)count; at += taken)
		if (cimbaloty_input(c, octets + at, (size_t)count - at, &taken) == CIMBALOTY_NO_MEMORY || !line_send(c, fd))
			return false;
	return true;
}
