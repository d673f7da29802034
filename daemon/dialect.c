/* dialect.c - the modem's codes, by name or from a file. */
#define _GNU_SOURCE
#include "dialect.h"
#include <errno.h>
#include <stdio.h>
#include <stdlib.h>
#include <string.h>

static const struct { const char *name; uint8_t form; } forms[] = {
	{ "line ", CIMBALOTY_LINE }, { "prefix ", CIMBALOTY_PREFIX }, { "quoted ", CIMBALOTY_QUOTED },
	{ "report ", CIMBALOTY_REPORT }, { "open-report ", CIMBALOTY_OPEN_REPORT },
};

static const char *reason_of(uint8_t refusal)
{
	switch (refusal) {
	case CIMBALOTY_NO_MEMORY: return "no memory";
	case CIMBALOTY_TOO_MANY_RULES: return "a dialect has at most 64 rules";
	case CIMBALOTY_NO_TEXT: return "the text of the rule is missing";
	case CIMBALOTY_LONG_TEXT: return "the text of a rule has at most 64 octets";
	case CIMBALOTY_LINE_END: return "the text of a rule has no CR in it";
	case CIMBALOTY_BAD_NAME: return "a name has 1 to 64 octets 21 to 7E (hexadecimal)";
	case CIMBALOTY_IS_COMMAND: return "a line that begins with AT or at is the echo of a command";
	case CIMBALOTY_AMBIGUOUS: return "a line would both end an answer and be unsolicited";
	default: return "the rule is refused";
	}
}

/* Goes behind the word at the head of the text, if that is it. */
static bool passes(const char **text, const char *word)
{
	size_t length = strlen(word);

	if (strncmp(*text, word, length))
		return false;
	*text += length;
	return true;
}

/* Adds the rule of a line. Gives why it can't, or NULL. */
static const char *add_rule(struct cimbaloty_dialect *d, const char *line)
{
	bool is_final = passes(&line, "final ");
	uint8_t form = 0, said;

	if (!is_final && !passes(&line, "unsolicited "))
		return "final or unsolicited, and one blank, have to stand at its head";
	for (size_t i = 0; i < sizeof forms / sizeof forms[0] && !form; i++)
		if (passes(&line, forms[i].name))
			form = forms[i].form;
	if (!form)
		return "line, prefix, quoted, report or open-report, and one blank, have to stand behind the first word";
	if (is_final)
		said = cimbaloty_dialect_add_final(d, form, line, strlen(line));
	else {
		const char *blank = strrchr(line, ' ');

		if (!blank)
			return "a name, behind one blank, has to stand at its end";
		said = cimbaloty_dialect_add_unsolicited(d, form, line, (size_t)(blank - line), blank + 1, strlen(blank + 1));
	}
	return said == CIMBALOTY_OK ? NULL : reason_of(said);
}

static bool read_rules(struct cimbaloty_dialect *d, FILE *file, const char *path)
{
	const char *why = NULL;
	char *line = NULL;
	size_t room = 0;
	ssize_t length;
	unsigned number = 0;

	while (!why && (length = getline(&line, &room, file)) >= 0) {
		number++;
		if (length && line[length - 1] == '\n')
			line[--length] = 0;
		if (length && line[length - 1] == '\r')
			line[--length] = 0;
		if (line[0] != '#' && line[strspn(line, " ")] != 0)
			why = add_rule(d, line);
	}
	free(line);
	if (why)
		fprintf(stderr, "cimbalotyd: %s:%u: %s\n", path, number, why);
	else if (ferror(file))
		fprintf(stderr, "cimbalotyd: dialect %s: it can't be read\n", path);
	return !why && !ferror(file);
}

/* Behind CONNECT there is data: the line ends the answer of the command that dials. */
static bool add_connect(struct cimbaloty_dialect *d, const char *name)
{
	static const char text[] = "CONNECT";
	uint8_t said = cimbaloty_dialect_add_final(d, CIMBALOTY_PREFIX, text, sizeof text - 1);

	if (said != CIMBALOTY_OK)
		fprintf(stderr, "cimbalotyd: dialect %s, with CONNECT for --dial: %s\n", name, reason_of(said));
	return said == CIMBALOTY_OK;
}

bool dialect_read(struct cimbaloty_dialect *d, const char *name, bool dials)
{
	bool is_common = !strcmp(name, "common"), is_dialling = !strcmp(name, "dialling");
	FILE *file = is_common || is_dialling ? NULL : fopen(name, "re");

	if (!is_common && !is_dialling && !file) {
		fprintf(stderr, "cimbalotyd: dialect %s: %s\n", name, strerror(errno));
		return false;
	}
	uint8_t said = is_common ? cimbaloty_dialect_common(d) : is_dialling ? cimbaloty_dialect_dialling(d) : cimbaloty_dialect_new(d);
	bool holds = said == CIMBALOTY_OK;
	if (!holds)
		fputs("cimbalotyd: no memory\n", stderr);
	if (file) {
		holds = holds && read_rules(d, file, name);
		fclose(file);
	}
	holds = holds && (!dials || add_connect(d, name));
	if (!holds)
		cimbaloty_dialect_free(d);
	return holds;
}
