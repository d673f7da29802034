/* line.h - a modem's tty: opened raw, brought into the multiplexer, and what passes on it. */
#ifndef LINE_H
#define LINE_H

#include "cimbaloty.h"

/* Opens a tty as a raw line of 115200 bit/s that doesn't block. Gives its descriptor, or -1 with errno. */
int line_open(const char *path);

/* Brings the modem into the multiplexer by AT+CMUX=0 (27.007, 5.7), which it sends three times at most, a second apart, and
 * ends one that was left running before the second and third time. Gives CIMBALOTY_ENTERED, or why the modem isn't entered:
 * TURNED_DOWN, SILENT, LINE_LOST or NO_MEMORY. */
uint8_t line_enter(int fd);

/* Writes all octets that wait for the line; false if the line failed. */
bool line_send(struct cimbaloty *c, int fd);

/* Reads what came and takes it in; false if the line ended or there is no memory. */
bool line_receive(struct cimbaloty *c, int fd);

#endif
