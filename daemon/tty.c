/* tty.c - the modem's terminal: opened raw, at its speed, for this program alone. */
#define _GNU_SOURCE
#include "tty.h"
#include <errno.h>
#include <fcntl.h>
#include <sys/file.h>
#include <sys/ioctl.h>
#include <termios.h>
#include <unistd.h>

static const struct { unsigned speed; speed_t code; } speeds[] = {
	{ 1200, B1200 }, { 2400, B2400 }, { 4800, B4800 }, { 9600, B9600 }, { 19200, B19200 }, { 38400, B38400 },
	{ 57600, B57600 }, { 115200, B115200 }, { 230400, B230400 }, { 460800, B460800 }, { 500000, B500000 },
	{ 576000, B576000 }, { 921600, B921600 }, { 1000000, B1000000 }, { 1152000, B1152000 }, { 1500000, B1500000 },
	{ 2000000, B2000000 }, { 2500000, B2500000 }, { 3000000, B3000000 }, { 3500000, B3500000 }, { 4000000, B4000000 },
};

static speed_t code_of(unsigned speed)
{
	for (size_t i = 0; i < sizeof speeds / sizeof speeds[0]; i++)
		if (speeds[i].speed == speed)
			return speeds[i].code;
	return B0;
}

bool tty_knows_speed(unsigned speed)
{
	return code_of(speed) != B0;
}

/* Sets it raw; a hang-up of the modem's carrier ends nothing, and closing it drops no signal. */
static bool set_up(int fd, unsigned speed, bool rtscts)
{
	struct termios how;

	if (tcgetattr(fd, &how))
		return false;
	cfmakeraw(&how);
	how.c_cflag |= CLOCAL | CREAD;
	how.c_cflag &= ~(tcflag_t)(HUPCL | CRTSCTS | CSTOPB);
	if (rtscts)
		how.c_cflag |= CRTSCTS;
	how.c_cc[VMIN] = 1;
	how.c_cc[VTIME] = 0;
	cfsetispeed(&how, code_of(speed));
	cfsetospeed(&how, code_of(speed));
	return tcsetattr(fd, TCSANOW, &how) == 0;
}

static int closed_for(int fd, int why)
{
	close(fd);
	errno = why;
	return -1;
}

int tty_open(const char *path, unsigned speed, bool rtscts)
{
	int fd = open(path, O_RDWR | O_NOCTTY | O_NONBLOCK | O_CLOEXEC);

	if (fd < 0)
		return -1;
	if (!isatty(fd))
		return closed_for(fd, ENOTTY);
	if (flock(fd, LOCK_EX | LOCK_NB))
		return closed_for(fd, errno == EWOULDBLOCK ? EBUSY : errno);
	if (!set_up(fd, speed, rtscts) || ioctl(fd, TIOCEXCL))
		return closed_for(fd, errno);
	return fd;
}

void tty_close(int fd)
{
	tcflush(fd, TCIOFLUSH);
	ioctl(fd, TIOCNXCL);
	close(fd);
}
