/* options.c - what the daemon is told: words of the command line, and the same words from a file. */
#define _GNU_SOURCE
#include "options.h"
#include "cimbaloty.h"
#include "tty.h"
#include <errno.h>
#include <grp.h>
#include <stddef.h>
#include <stdint.h>
#include <stdlib.h>
#include <string.h>
#include <syslog.h>

/* A word: its name, its value for --help, and how it is taken. Where there is no function, the value is a number from
 * `least` to `most`, kept at `place`. A function says what has to stand there, or NULL where that does. */
struct word {
	const char *name, *value, *help;
	const char *(*take)(struct options *o, const char *text);
	size_t place;
	unsigned least, most;
};

/* ---- Values ---- */

static bool is_number(const char *text, unsigned least, unsigned most, unsigned *number)
{
	char *end;

	if (*text < '0' || *text > '9' || (text[0] == '0' && text[1]) || strlen(text) > 9)
		return false;
	unsigned long value = strtoul(text, &end, 10);
	*number = (unsigned)value;
	return *end == 0 && value >= least && value <= most;
}

static const char *keep_text(char **place, const char *text)
{
	free(*place);
	*place = *text ? strdup(text) : NULL;
	return *place ? NULL : "a text of at least one octet";
}

static const char *take_tty(struct options *o, const char *text) { return keep_text(&o->tty, text); }
static const char *take_directory(struct options *o, const char *text) { return keep_text(&o->directory, text); }
static const char *take_dialect(struct options *o, const char *text) { return keep_text(&o->dialect, text); }

static bool is_command(const char *text)
{
	size_t length = strlen(text);

	if (length > COMMAND || (strncmp(text, "AT", 2) && strncmp(text, "at", 2)))
		return false;
	for (size_t i = 0; i < length; i++)
		if (text[i] < ' ' || text[i] > '~')
			return false;
	return true;
}

static const char command_form[] = "AT or at, and at most 256 octets 20 to 7E (hexadecimal) in all";

static const char *take_entry(struct options *o, const char *text)
{
	if (!is_command(text))
		return command_form;
	snprintf(o->entry, sizeof o->entry, "%s", text);
	return NULL;
}

static const char *take_init(struct options *o, const char *text)
{
	if (!is_command(text))
		return command_form;
	if (o->inits == INITS)
		return "at most 16 commands of this sort";
	return keep_text(&o->init[o->inits++], text);
}

static const char *take_speed(struct options *o, const char *text)
{
	return is_number(text, 1, 4000000, &o->speed) && tty_knows_speed(o->speed) ? NULL : "a usual speed in bit/s, such as 9600, 115200 or 921600";
}

static const char *take_rtscts(struct options *o, const char *text)
{
	(void)text;
	o->rtscts = true;
	return NULL;
}

static const char *take_events(struct options *o, const char *text)
{
	unsigned place;

	if (strncmp(text, "at", 2) || !is_number(text + 2, 1, CONNECTIONS, &place))
		return "the name of a terminal for commands: at1, at2 ..";
	o->events[place] = true;
	return NULL;
}

static const char connection_form[] = "the number of a connection, 1 to 61";

static const char *take_carries(struct options *o, const char *text, enum carries what)
{
	unsigned place;

	if (!is_number(text, 1, CONNECTIONS, &place))
		return connection_form;
	o->carries[place] = (uint8_t)what;
	return NULL;
}

static const char *take_data(struct options *o, const char *text) { return take_carries(o, text, DATA); }
static const char *take_dial(struct options *o, const char *text) { return take_carries(o, text, DATA_BEHIND_CONNECT); }
static const char *take_sms(struct options *o, const char *text) { return take_carries(o, text, TEXTS); }

static const char *take_carrier(struct options *o, const char *text)
{
	unsigned place;

	if (!is_number(text, 1, CONNECTIONS, &place))
		return connection_form;
	o->carrier[place] = true;
	return NULL;
}

static const char *take_mode(struct options *o, const char *text)
{
	char *end;
	unsigned long mode = strtoul(text, &end, 8);

	if (*text < '0' || *text > '7' || *end || mode > 0777)
		return "permissions in octal, such as 660";
	o->mode = (mode_t)mode;
	o->has_mode = true;
	return NULL;
}

static const char *take_group(struct options *o, const char *text)
{
	struct group *found = getgrnam(text);
	unsigned number;

	if (!found && !is_number(text, 0, 999999999, &number))
		return "the name or number of a group that is there";
	o->group = found ? found->gr_gid : (gid_t)number;
	o->has_group = true;
	return NULL;
}

static const char *take_log(struct options *o, const char *text)
{
	o->to_syslog = !strcmp(text, "syslog");
	return o->to_syslog || !strcmp(text, "stderr") ? NULL : "stderr or syslog";
}

static const char *take_level(struct options *o, const char *text)
{
	static const struct { const char *name; int level; } levels[] = {
		{ "error", LOG_ERR }, { "warning", LOG_WARNING }, { "notice", LOG_NOTICE }, { "info", LOG_INFO }, { "debug", LOG_DEBUG },
	};

	for (size_t i = 0; i < sizeof levels / sizeof levels[0]; i++)
		if (!strcmp(text, levels[i].name)) {
			o->level = levels[i].level;
			return NULL;
		}
	return "error, warning, notice, info or debug";
}

#define NUMBER(field, least, most) NULL, offsetof(struct options, field), least, most
#define BY(function) function, 0, 0, 0

static const struct word words[] = {
	{ "tty", "PATH", "the modem's terminal, in place of the operand TTY", BY(take_tty) },
	{ "directory", "PATH", "the folder, in place of the operand DIRECTORY", BY(take_directory) },
	{ "connections", "N", "connections and terminals for commands, 1 to 61 (4)", NUMBER(connections, 1, CONNECTIONS) },
	{ "n1", "N", "the most octets of information in a frame, 31 to 32767 (31)", NUMBER(n1, 31, 32767) },
	{ "entry", "TEXT", "the command that enters (AT+CMUX=0, or AT+CMUX=0,0,,N1)", BY(take_entry) },
	{ "init", "COMMAND", "a command before it, such as ATE0; up to 16 of them", BY(take_init) },
	{ "dialect", "DIALECT", "the modem's codes: common, dialling or a file (common)", BY(take_dialect) },
	{ "speed", "BITS", "bit/s of the line (115200)", BY(take_speed) },
	{ "rtscts", NULL, "hardware flow control", BY(take_rtscts) },
	{ "t1", "MS", "T1 in milliseconds, 10 to 60000 (100; below 57600 bit/s 300)", NUMBER(t1, 10, 60000) },
	{ "limit", "SECONDS", "how long a command may wait for its answer (120)", NUMBER(limit, 1, 86400) },
	{ "probe", "SECONDS", "after how long a silent modem is probed, 0 never (5)", NUMBER(probe, 0, 86400) },
	{ "events", "NAME", "unsolicited lines go to at1, at2 .. too; repeatable", BY(take_events) },
	{ "data", "D", "connection D carries data, on dataD; up to 8 of them", BY(take_data) },
	{ "dial", "D", "so it does behind the CONNECT line of a command on atD", BY(take_dial) },
	{ "carrier", "D", "data on D ends where the modem loses the carrier, too", BY(take_carrier) },
	{ "sms", "D", "AT+CMGS, AT+CMGW and AT+CMGC on atD ask for their text", BY(take_sms) },
	{ "keep", "N", "unsolicited lines kept while nobody reads, up to 65536 (256)", NUMBER(keep, 0, 65536) },
	{ "mode", "MODE", "permissions of the terminals in octal, such as 660", BY(take_mode) },
	{ "group", "GROUP", "group of the terminals", BY(take_group) },
	{ "log", "WHERE", "stderr or syslog (stderr)", BY(take_log) },
	{ "level", "LEVEL", "error, warning, notice, info or debug (info)", BY(take_level) },
};

/* ---- Words ---- */

/* Says why a word is refused, behind the place where it stands. */
static bool refuse(const char *where, const char *name, const char *text, const char *want)
{
	fprintf(stderr, "cimbalotyd: %s%s%s%s: %s\n", where, name, text ? " " : "", text ? text : "", want);
	return false;
}

static const struct word *find(const char *name, size_t length)
{
	for (size_t i = 0; i < sizeof words / sizeof words[0]; i++)
		if (strlen(words[i].name) == length && !memcmp(words[i].name, name, length))
			return &words[i];
	return NULL;
}

static bool take(struct options *o, const struct word *w, const char *text, const char *where)
{
	if (w->value && !text)
		return refuse(where, w->name, NULL, "a value has to stand behind it");
	if (!w->value && text)
		return refuse(where, w->name, text, "no value may stand behind it");
	if (!w->take) {
		if (is_number(text, w->least, w->most, (unsigned *)(void *)((char *)o + w->place)))
			return true;
		char range[80];
		snprintf(range, sizeof range, "a number from %u to %u has to stand there", w->least, w->most);
		return refuse(where, w->name, text, range);
	}
	const char *want = w->take(o, text);
	return !want || refuse(where, w->name, text, want);
}

/* A line of a file: nothing, a comment, or a word and its value. */
static bool take_line(struct options *o, char *line, const char *where)
{
	size_t length = strlen(line);

	while (length && strchr(" \t\r\n", line[length - 1]))
		line[--length] = 0;
	line += strspn(line, " \t");
	if (*line == 0 || *line == '#')
		return true;
	size_t name = strcspn(line, " \t=");
	const struct word *w = find(line, name);
	const char *value = line + name + strspn(line + name, " \t");
	if (*value == '=')
		value += 1 + strspn(value + 1, " \t");
	line[name] = 0;
	if (!w)
		return refuse(where, line, NULL, "no such word: cimbalotyd --help names them, and a file has them without --");
	return take(o, w, *value ? value : NULL, where);
}

static bool take_file(struct options *o, const char *path)
{
	FILE *file = fopen(path, "re");
	char *line = NULL, where[300];
	size_t room = 0;
	bool holds = true;

	if (!file)
		return refuse("--", "config", path, strerror(errno));
	for (unsigned number = 1; holds && getline(&line, &room, file) >= 0; number++) {
		snprintf(where, sizeof where, "%.255s:%u: ", path, number);
		holds = take_line(o, line, where);
	}
	if (holds && ferror(file))
		holds = refuse("--", "config", path, "it can't be read");
	free(line);
	fclose(file);
	return holds;
}

static void show_help(void)
{
	puts("usage: cimbalotyd [OPTION..] TTY DIRECTORY\n\n"
	     "Shares the modem on the terminal TTY among programs: brings it into the multiplexer (3GPP TS 27.010) and makes\n"
	     "the pseudo-terminals DIRECTORY/at1, at2 .. for commands, and DIRECTORY/events for unsolicited lines.\n");
	for (size_t i = 0; i < sizeof words / sizeof words[0]; i++) {
		int width = 22 - (int)strlen(words[i].name);

		printf("  --%s %-*s%s\n", words[i].name, width, words[i].value ? words[i].value : "", words[i].help);
	}
	puts("  --config FILE           reads these words from a file, one in each line, without --\n"
	     "  --help, --version\n\n"
	     "SIGHUP reopens the line, SIGUSR1 says how things stand, SIGTERM ends the multiplexer and the daemon.\n"
	     "cimbalotyd(8) says more.");
}

/* Takes a word that begins with -- and its value, which may stand behind a = too. Gives how many words it took, 0 where
 * it was refused. */
static int take_option(struct options *o, char *name, const char *next)
{
	char *joined = strchr(name, '=');
	size_t length = joined ? (size_t)(joined - name) : strlen(name);
	const struct word *w = find(name, length);
	bool is_file = length == 6 && !memcmp(name, "config", 6), holds;
	const char *value = joined ? joined + 1 : is_file || (w && w->value) ? next : NULL;

	if (is_file)
		holds = value ? take_file(o, value) : refuse("--", "config", NULL, "a value has to stand behind it");
	else if (w)
		holds = take(o, w, value, "--");
	else
		holds = refuse("--", name, NULL, "no such option: see cimbalotyd --help");
	if (!holds)
		return 0;
	return joined || !value ? 1 : 2;
}

/* Why what was said of a connection can't be; NULL where it can. */
static const char *fault_of(const struct options *o, unsigned place)
{
	if (o->carrier[place] && o->carries[place] != DATA && o->carries[place] != DATA_BEHIND_CONNECT)
		return "it has a carrier, and carries no data: see --data and --dial";
	if (o->carries[place] == LINES)
		return NULL;
	if (place > o->connections)
		return "there is no such connection: see --connections";
	return o->lanes + o->asking == LANES ? "at most 8 connections carry data or ask for texts" : NULL;
}

/* Lists the connections that carry more than commands. */
static bool complete_data(struct options *o)
{
	for (unsigned place = 1; place <= CONNECTIONS; place++) {
		const char *why = fault_of(o, place);

		if (why) {
			fprintf(stderr, "cimbalotyd: connection %u: %s\n", place, why);
			return false;
		}
		if (o->carries[place] == TEXTS)
			o->texts[o->asking++] = (uint8_t)place;
		else if (o->carries[place] != LINES)
			o->data[o->lanes++] = (uint8_t)place;
	}
	return true;
}

/* Fills in what wasn't said, and checks what needs the whole. */
static bool complete(struct options *o)
{
	if (!o->tty || !o->directory)
		return refuse("", "usage: cimbalotyd [OPTION..] TTY DIRECTORY", NULL, "both have to be given");
	for (unsigned place = o->connections + 1; place <= CONNECTIONS; place++)
		if (o->events[place]) {
			fprintf(stderr, "cimbalotyd: events at%u: there are only %u connections\n", place, o->connections);
			return false;
		}
	if (!complete_data(o))
		return false;
	if (!o->t1)
		o->t1 = o->speed < 57600 ? 300 : 100;
	if (!*o->entry && o->n1 != 31)
		snprintf(o->entry, sizeof o->entry, "AT+CMUX=0,0,,%u", o->n1);
	else if (!*o->entry)
		snprintf(o->entry, sizeof o->entry, "AT+CMUX=0");
	return o->dialect || !keep_text(&o->dialect, "common");
}

static bool take_operand(struct options *o, const char *text)
{
	if (o->tty && o->directory)
		return refuse("", text, NULL, "an operand too many: TTY and DIRECTORY are there");
	return !keep_text(o->tty ? &o->directory : &o->tty, text) || refuse("", "an operand", NULL, "it is empty");
}

enum options_result options_read(struct options *o, int argc, char **argv)
{
	*o = (struct options){ .connections = 4, .n1 = 31, .speed = 115200, .limit = 120, .probe = 5, .keep = 256, .level = LOG_INFO };
	o->events[0] = true;
	for (int at = 1; at < argc;) {
		if (!strcmp(argv[at], "--help") || !strcmp(argv[at], "-h")) {
			show_help();
			return OPTIONS_SHOWN;
		}
		if (!strcmp(argv[at], "--version")) {
			printf("cimbalotyd %d.%d.%d\n", CIMBALOTY_VERSION >> 16, CIMBALOTY_VERSION >> 8 & 255, CIMBALOTY_VERSION & 255);
			return OPTIONS_SHOWN;
		}
		int took = !strncmp(argv[at], "--", 2) ? take_option(o, argv[at] + 2, at + 1 < argc ? argv[at + 1] : NULL) : take_operand(o, argv[at]);
		if (took == 0)
			return OPTIONS_REFUSED;
		at += took;
	}
	return complete(o) ? OPTIONS_TAKEN : OPTIONS_REFUSED;
}

void options_free(struct options *o)
{
	free(o->tty);
	free(o->directory);
	free(o->dialect);
	for (unsigned i = 0; i < o->inits; i++)
		free(o->init[i]);
}
