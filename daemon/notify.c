/* notify.c - tells the service manager how things stand, by the protocol of sd_notify(3). */
#define _GNU_SOURCE
#include "notify.h"
#include "log.h"
#include <errno.h>
#include <stddef.h>
#include <stdio.h>
#include <stdlib.h>
#include <string.h>
#include <unistd.h>

/* A path, or behind @ the name of an abstract socket. */
static bool set_address(struct notify *n, const char *name)
{
	size_t length = strlen(name);

	if ((name[0] != '/' && name[0] != '@') || length < 2 || length >= sizeof n->to.sun_path)
		return false;
	n->to.sun_family = AF_UNIX;
	memcpy(n->to.sun_path, name, length);
	if (name[0] == '@')
		n->to.sun_path[0] = 0;
	n->length = (socklen_t)(offsetof(struct sockaddr_un, sun_path) + length);
	return true;
}

/* Half of the time after which the service manager takes this process for dead. */
static int64_t half_of_watchdog(void)
{
	const char *microseconds = getenv("WATCHDOG_USEC"), *pid = getenv("WATCHDOG_PID");

	if (!microseconds || (pid && strtol(pid, NULL, 10) != (long)getpid()))
		return 0;
	return strtoll(microseconds, NULL, 10) / 2000;
}

void notify_open(struct notify *n)
{
	const char *name = getenv("NOTIFY_SOCKET");

	memset(n, 0, sizeof *n);
	n->fd = -1;
	if (!name)
		return;
	if (set_address(n, name))
		n->fd = socket(AF_UNIX, SOCK_DGRAM | SOCK_CLOEXEC | SOCK_NONBLOCK, 0);
	else
		errno = EINVAL;
	if (n->fd < 0)
		say(LOG_WARNING, "NOTIFY_SOCKET %s: %s: the service manager isn't told how things stand", name, strerror(errno));
	else
		n->every = half_of_watchdog();
	unsetenv("NOTIFY_SOCKET");
	unsetenv("WATCHDOG_USEC");
	unsetenv("WATCHDOG_PID");
}

void notify_close(struct notify *n)
{
	if (n->fd >= 0)
		close(n->fd);
	n->fd = -1;
}

void notify_say(struct notify *n, const char *line)
{
	if (n->fd >= 0 && sendto(n->fd, line, strlen(line), MSG_NOSIGNAL, (struct sockaddr *)&n->to, n->length) < 0)
		say(LOG_DEBUG, "the service manager isn't reached: %s", strerror(errno));
}

void notify_status(struct notify *n, const char *status)
{
	char line[sizeof n->status + 8];

	if (strncmp(status, n->status, sizeof n->status - 1) == 0)
		return;
	snprintf(n->status, sizeof n->status, "%s", status);
	snprintf(line, sizeof line, "STATUS=%s", n->status);
	notify_say(n, line);
}

void notify_alive(struct notify *n, int64_t now)
{
	if (n->fd < 0 || n->every <= 0 || now < n->next)
		return;
	notify_say(n, "WATCHDOG=1");
	n->next = now + n->every;
}
