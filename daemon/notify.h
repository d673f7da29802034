/* notify.h - tells the service manager how things stand, by the protocol of sd_notify(3). */
#ifndef NOTIFY_H
#define NOTIFY_H

#include <stdbool.h>
#include <stdint.h>
#include <sys/socket.h>
#include <sys/un.h>

struct notify {
	int fd;                 /* -1: nobody wants to know */
	struct sockaddr_un to;
	socklen_t length;
	int64_t every, next;    /* milliseconds between signs of life, and when the next is due; 0: none are wanted */
	char status[240];       /* the last one */
};

/* Goes by NOTIFY_SOCKET, WATCHDOG_USEC and WATCHDOG_PID. Programs that this one starts don't inherit them. */
void notify_open(struct notify *n);
void notify_close(struct notify *n);

/* Sends one line, such as READY=1. */
void notify_say(struct notify *n, const char *line);

/* Sends a status, if it isn't the last one. */
void notify_status(struct notify *n, const char *status);

/* Sends a sign of life, if one is due. */
void notify_alive(struct notify *n, int64_t now);

#endif
