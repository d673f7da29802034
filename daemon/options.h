/* options.h - what the daemon is told: words of the command line, and the same words from a file. */
#ifndef OPTIONS_H
#define OPTIONS_H

#include <stdbool.h>
#include <stdint.h>
#include <stdio.h>
#include <sys/types.h>

enum { COMMAND = 256, CONNECTIONS = 61, INITS = 16, LANES = 8 };

/* What a connection carries: commands; commands that may ask for a text; data, from its opening on; or data behind the CONNECT line of a
 * command. */
enum carries { LINES, TEXTS, DATA, DATA_BEHIND_CONNECT };

struct options {
	char *tty, *directory;          /* the modem's terminal; the folder for the pseudo-terminals */
	unsigned connections;
	unsigned n1;
	char entry[COMMAND + 1];
	char *init[INITS];              /* sent as plain text, before the entry */
	unsigned inits;
	char *dialect;                  /* a name, or a path */
	unsigned speed;                 /* bit/s */
	bool rtscts;
	unsigned t1;                    /* milliseconds */
	unsigned limit, probe;          /* seconds; probe 0: none */
	bool events[CONNECTIONS + 1];   /* where unsolicited lines go: 0 is the terminal for events */
	uint8_t carries[CONNECTIONS + 1];       /* enum carries */
	bool carrier[CONNECTIONS + 1];  /* whether the loss of the carrier ends its data */
	uint8_t data[LANES], texts[LANES];      /* the connections that may carry data, and those whose commands may ask for a text, in order */
	unsigned lanes, asking;         /* how many these are: LANES together at most */
	unsigned keep;                  /* how many unsolicited lines are kept while nobody reads */
	bool has_mode, has_group;       /* of the pseudo-terminals */
	mode_t mode;
	gid_t group;
	bool to_syslog;
	int level;
};

enum options_result { OPTIONS_TAKEN, OPTIONS_REFUSED, OPTIONS_SHOWN };

/* Reads the words. REFUSED: the reason was written to standard error, with file and line where it is in a file. SHOWN:
 * help or the version was asked for and written to standard output. Free the options in each case. */
enum options_result options_read(struct options *o, int argc, char **argv);

void options_free(struct options *o);

#endif
