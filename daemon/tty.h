/* tty.h - the modem's terminal: opened raw, at its speed, for this program alone. */
#ifndef TTY_H
#define TTY_H

#include <stdbool.h>

/* Whether a line can be set to so many bit/s. */
bool tty_knows_speed(unsigned speed);

/* Opens a terminal raw. It doesn't block, and no other program that locks it by flock(2) may have it; others are kept
 * out by TIOCEXCL, unless they run as root. Gives its descriptor, or -1 with errno: EBUSY where another has it locked. */
int tty_open(const char *path, unsigned speed, bool rtscts);

/* Closes it. What wasn't sent yet is dropped, so that a line that stands still doesn't hold this up. */
void tty_close(int fd);

#endif
