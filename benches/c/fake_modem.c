/* fake_modem.c - the fake modem on a pseudo-terminal: fake_modem LINK HANG-UPS
 *
 * LINK is made a link to the pseudo-terminal. Behind each 300 commands, as often as HANG-UPS says, it hangs
 * up: the command has no answer, and a new pseudo-terminal takes the place of the old one. Ends by SIGTERM,
 * and then says what it saw. What it says goes out in pieces of 1 to 37 octets. */
#define _GNU_SOURCE
#include "fake.h"
#include <errno.h>
#include <fcntl.h>
#include <poll.h>
#include <signal.h>
#include <stdio.h>
#include <stdlib.h>
#include <string.h>
#include <termios.h>
#include <unistd.h>

static volatile sig_atomic_t is_ending;

static void end(int signal)
{
	(void)signal;
	is_ending = 1;
}

static int make(const char *link, int *other)
{
	struct termios how;
	char name[128];
	int fd = posix_openpt(O_RDWR | O_NOCTTY | O_CLOEXEC);

	if (fd < 0 || grantpt(fd) || unlockpt(fd) || ptsname_r(fd, name, sizeof name)
	    || (*other = open(name, O_RDWR | O_NOCTTY | O_CLOEXEC)) < 0 || tcgetattr(*other, &how)) {
		perror("fake_modem");
		exit(1);
	}
	cfmakeraw(&how);
	tcsetattr(*other, TCSANOW, &how);
	unlink(link);
	if (symlink(name, link)) {
		perror(link);
		exit(1);
	}
	return fd;
}

int main(int argc, char **argv)
{
	static struct fake f;
	struct sigaction action = { .sa_handler = end };
	unsigned long hang_ups = argc > 2 ? strtoul(argv[2], NULL, 10) : 0, done = 0, next = 300;
	int other, fd = make(argv[1], &other);
	uint8_t octets[4096];

	sigaction(SIGTERM, &action, NULL);
	while (!is_ending) {
		struct pollfd p = { fd, (short)(POLLIN | (f.out_length ? POLLOUT : 0)), 0 };

		if (poll(&p, 1, 1000) < 0)
			continue;
		if (p.revents & POLLIN) {
			ssize_t n = read(fd, octets, sizeof octets);

			if (n > 0)
				fake_hears(&f, octets, (size_t)n);
		}
		if (done < hang_ups && f.commands >= next) {
			struct fake kept = f;

			memset(&f, 0, sizeof f);
			f.commands = kept.commands, f.openings = kept.openings, f.rings = kept.rings;
			f.bad = kept.bad, f.stops = kept.stops;
			close(other);
			close(fd);
			fd = make(argv[1], &other);
			done++;
			next = f.commands + 300;
			continue;
		}
		size_t count = fake_says(&f, octets, 1 + (f.commands * 31 + f.out_length) % 37);
		for (size_t at = 0; at < count && !is_ending;) {
			ssize_t n = write(fd, octets + at, count - at);

			if (n <= 0)
				break;
			at += (size_t)n;
		}
	}
	printf("%lu commands, %lu openings, %lu hang-ups, %lu rings, %lu stops, %lu bad frames\n", f.commands, f.openings, done, f.rings, f.stops, f.bad);
	return f.bad != 0;
}
