/* names.c - names of the library's numbers, for messages. */
#include "cimbaloty.h"

struct name {
	unsigned number;
	const char *text;
};

#define NAMED(constant) { CIMBALOTY_##constant, #constant }
#define STATE(constant) { CIMBALOTY_IS_##constant, #constant }
#define FIND(names, number) find(names, sizeof names / sizeof names[0], number)

static const char *find(const struct name *names, size_t count, unsigned number)
{
	for (size_t i = 0; i < count; i++)
		if (names[i].number == number)
			return names[i].text;
	return "?";
}

const char *cimbaloty_status_name(unsigned status)
{
	static const struct name names[] = {
		NAMED(OK), NAMED(NO_MEMORY), { CIMBALOTY_FULL, "FULL or BAD_N1" }, NAMED(LINE_LOST), NAMED(NO_DRIVER),
		NAMED(HAS_DRIVER), NAMED(BAD_DLCI), NAMED(LONG_PROBE), NAMED(BAD_KINDS), NAMED(OUTPUT_FIRST), NAMED(NO_ROOM),
		NAMED(NOTHING), NAMED(HAS_DIALECT), NAMED(NO_DIALECT), NAMED(BAD_FORM), NAMED(ENTERED), NAMED(TURNED_DOWN), NAMED(SILENT), NAMED(HAS_ENTRY), NAMED(NO_ENTRY), NAMED(NO_AT), NAMED(BAD_OCTET),
		NAMED(TOO_LONG), NAMED(TOO_MANY_RULES), NAMED(NO_TEXT), NAMED(LONG_TEXT), NAMED(LINE_END), NAMED(BAD_NAME),
		NAMED(IS_COMMAND), NAMED(AMBIGUOUS),
	};

	return FIND(names, status);
}

const char *cimbaloty_answer_name(unsigned answer)
{
	static const struct name names[] = {
		NAMED(DONE), NAMED(OPENED), NAMED(SHUT), NAMED(PROBE_BACK), NAMED(STOPPED), NAMED(NOT_OPEN), NAMED(ALREADY_OPEN),
		NAMED(REFUSED), NAMED(NO_ANSWER), NAMED(CLOSED), NAMED(CONTROL_CHANNEL), NAMED(LOST), NAMED(BUSY),
	};

	return FIND(names, answer);
}

const char *cimbaloty_kind_name(unsigned kind)
{
	static const struct name names[] = {
		NAMED(RING), NAMED(CRING), NAMED(CREG), NAMED(CGREG), NAMED(CGEV), NAMED(CIEV), NAMED(OTHER),
	};

	return kind >= CIMBALOTY_OWN && kind < CIMBALOTY_OWN + 64 ? "OWN" : FIND(names, kind);
}

const char *cimbaloty_state_name(unsigned state)
{
	static const struct name names[] = {
		STATE(SHUT), STATE(OPENING), STATE(OPENED), STATE(CLOSING), STATE(STOPPING),
	};

	return FIND(names, state);
}
