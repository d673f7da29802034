/* uart.c - a serial line under a program whose terminal is a pseudo-terminal, as the kernel's drivers of serial lines make one: it takes 4096
 * octets ahead and sends them at its speed, tells by TIOCOUTQ how many wait, and by poll(2) that there is room once fewer than 256 do.
 * It is preloaded; UART_TTY is the path of the terminal, or UART_FD its open file, and UART_SPEED the octets that leave in a second. */
#define _GNU_SOURCE
#include <dlfcn.h>
#include <errno.h>
#include <fcntl.h>
#include <poll.h>
#include <pthread.h>
#include <signal.h>
#include <stdarg.h>
#include <stdlib.h>
#include <string.h>
#include <sys/ioctl.h>
#include <sys/types.h>
#include <time.h>
#include <unistd.h>

enum { ROOM = 4096, LOW = 256, STEP = 200000 /* ns */ };

static struct {
	pthread_mutex_t lock;
	int fd;
	double speed;
	char octets[ROOM];
	size_t count;
} uart = { .lock = PTHREAD_MUTEX_INITIALIZER, .fd = -1 };

static ssize_t (*real_write)(int, const void *, size_t);
static int (*real_open)(const char *, int, ...);
static int (*real_close)(int);
static int (*real_ioctl)(int, unsigned long, ...);

static double seconds(void)
{
	struct timespec t;

	clock_gettime(CLOCK_MONOTONIC, &t);
	return (double)t.tv_sec + 1e-9 * (double)t.tv_nsec;
}

/* Sends what waits, at the line's speed: no more at once than it has time for in two milliseconds. */
static void *send_on(void *none)
{
	double last = seconds(), owed = 0;

	for (;;) {
		struct timespec step = { 0, STEP };
		double now;
		ssize_t n;

		nanosleep(&step, NULL);
		pthread_mutex_lock(&uart.lock);
		now = seconds();
		owed += (now - last) * uart.speed;
		owed = owed > uart.speed * 0.002 ? uart.speed * 0.002 : owed;
		last = now;
		n = uart.count < (size_t)owed ? (ssize_t)uart.count : (ssize_t)owed;
		n = n > 0 && uart.fd >= 0 ? real_write(uart.fd, uart.octets, (size_t)n) : 0;
		if (n > 0) {
			owed -= (double)n;
			uart.count -= (size_t)n;
			memmove(uart.octets, uart.octets + n, uart.count);
		}
		pthread_mutex_unlock(&uart.lock);
	}
	return none;
}

static void __attribute__((constructor)) begin(void)
{
	pthread_t sender;
	sigset_t all, before;

	real_write = (ssize_t (*)(int, const void *, size_t))dlsym(RTLD_NEXT, "write");
	real_open = (int (*)(const char *, int, ...))dlsym(RTLD_NEXT, "open");
	real_close = (int (*)(int))dlsym(RTLD_NEXT, "close");
	real_ioctl = (int (*)(int, unsigned long, ...))dlsym(RTLD_NEXT, "ioctl");
	uart.speed = atof(getenv("UART_SPEED"));
	uart.fd = getenv("UART_FD") ? atoi(getenv("UART_FD")) : -1;
	sigfillset(&all);
	pthread_sigmask(SIG_BLOCK, &all, &before);      /* signals are the program's */
	pthread_create(&sender, NULL, send_on, NULL);
	pthread_sigmask(SIG_SETMASK, &before, NULL);
}

int open(const char *path, int flags, ...)
{
	const char *tty = getenv("UART_TTY");
	va_list more;

	va_start(more, flags);
	int fd = real_open(path, flags, va_arg(more, int));
	va_end(more);
	if (fd >= 0 && tty && strcmp(path, tty) == 0) {
		pthread_mutex_lock(&uart.lock);
		uart.fd = fd;
		uart.count = 0;
		pthread_mutex_unlock(&uart.lock);
	}
	return fd;
}

int close(int fd)
{
	if (fd == uart.fd) {
		pthread_mutex_lock(&uart.lock);
		uart.fd = -1;
		pthread_mutex_unlock(&uart.lock);
	}
	return real_close(fd);
}

ssize_t write(int fd, const void *octets, size_t count)
{
	size_t n;

	if (fd < 0 || fd != uart.fd)
		return real_write(fd, octets, count);
	pthread_mutex_lock(&uart.lock);
	n = count < ROOM - uart.count ? count : ROOM - uart.count;
	memcpy(uart.octets + uart.count, octets, n);
	uart.count += n;
	pthread_mutex_unlock(&uart.lock);
	if (n == 0 && count > 0)
		errno = EAGAIN;
	return n > 0 || count == 0 ? (ssize_t)n : -1;
}

int ioctl(int fd, unsigned long what, ...)
{
	va_list more;

	va_start(more, what);
	void *at = va_arg(more, void *);
	va_end(more);
	if (what != TIOCOUTQ || fd != uart.fd)
		return real_ioctl(fd, what, at);
	*(int *)at = (int)uart.count;
	return 0;
}

/* While much waits there is no room: then it comes back once there may be, as if its time were over. */
int poll(struct pollfd *all, nfds_t count, int timeout)
{
	struct timespec left = { timeout / 1000, timeout % 1000 * 1000000L };
	struct pollfd *line = NULL;
	int n;

	for (nfds_t i = 0; i < count; i++)
		if (all[i].fd >= 0 && all[i].fd == uart.fd && (all[i].events & POLLOUT) && uart.count >= LOW)
			line = &all[i];
	if (line) {
		double wait = (double)(uart.count - LOW + 1) / uart.speed;

		line->events &= ~POLLOUT;
		if (timeout < 0 || wait < 1e-3 * timeout)
			left = (struct timespec){ (time_t)wait, (long)((wait - (double)(time_t)wait) * 1e9) };
	}
	n = ppoll(all, count, timeout < 0 && !line ? NULL : &left, NULL);
	if (line)
		line->events |= POLLOUT;
	return n;
}
