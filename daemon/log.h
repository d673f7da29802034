/* log.h - messages, to standard error or to syslog. Levels are those of syslog.h: LOG_ERR, LOG_WARNING, LOG_NOTICE,
 * LOG_INFO and LOG_DEBUG. */
#ifndef LOG_H
#define LOG_H

#include <stdbool.h>
#include <stdint.h>
#include <syslog.h>

/* From here on messages up to this level go to syslog, or else to standard error. Before it those up to LOG_INFO go to
 * standard error. */
void log_open(bool to_syslog, int level);

/* Says one line. The same text is said at most once a second. It never waits: where standard error takes nothing, the
 * line is dropped. */
void say(int level, const char *form, ...) __attribute__((format(printf, 2, 3)));

/* Milliseconds of a clock that nobody sets. */
int64_t milliseconds(void);

#endif
