/* entries.c - the entry into the multiplexer, call by call; and what stands beside the driver: names, counts of frames, changed states.
 * Octets that are expected are written out here, by 27.010 and V.250. */
#include "cimbaloty_enter.h"
#include "pair.h"

#define TAKES(e, text) takes(e, text, sizeof text - 1)

/* How many octets it took of these, and what it said, as 100 times that. */
static size_t takes(struct cimbaloty_entry *e, const char *octets, size_t length)
{
	size_t taken = 99;
	uint8_t said = cimbaloty_enter_input(e, (const uint8_t *)octets, length, &taken);

	CHECK(taken <= length);
	return said * 100u + taken;
}

/* It gives just these octets now, in pieces of this size. */
static void gives(struct cimbaloty_entry *e, const char *want, size_t length, size_t piece)
{
	uint8_t room[80];
	size_t at = 0, count;

	do {
		memset(room, 'x', sizeof room);
		count = cimbaloty_enter_output(e, room, piece);
		CHECK(at + count <= length && !memcmp(room, want + at, count) && room[count] == 'x');
		at += count;
	} while (count > 0);
	CHECK(at == length);
}

#define FLAGS "\xF9\xF9\xF9\xF9\xF9\xF9\xF9\xF9\xF9\xF9\xF9\xF9\xF9\xF9\xF9\xF9\xF9"
static const char text[] = "AT+CMUX=0\r", closing[] = FLAGS FLAGS "\xF9\x03\xEF\x05\xC3\x01\xF2\xF9\r";

static void entry_refusals(void)
{
	struct cimbaloty_entry none = CIMBALOTY_ENTRY_NONE, e = CIMBALOTY_ENTRY_NONE;
	char long_text[258];

	CHECK(TAKES(&none, "OK\r") == CIMBALOTY_NO_ENTRY * 100 && cimbaloty_enter_output(&none, NULL, 0) == 0);
	CHECK(cimbaloty_enter_wait(&none) == 0 && cimbaloty_enter_time_over(&none) == CIMBALOTY_NO_ENTRY);
	cimbaloty_enter_free(&none);
	CHECK(cimbaloty_enter_begin(&e, "AT", 2, 30, 0) == CIMBALOTY_BAD_N1 && cimbaloty_enter_begin(&e, "X", 1, 32768, 0) == CIMBALOTY_BAD_N1);
	CHECK(cimbaloty_enter_begin(&e, NULL, 0, 31, 0) == CIMBALOTY_NO_AT && cimbaloty_enter_begin(&e, "AT\r", 3, 31, 0) == CIMBALOTY_BAD_OCTET);
	memset(long_text, 'A', sizeof long_text);
	memcpy(long_text, "at", 2);
	CHECK(cimbaloty_enter_begin(&e, long_text, 257, 31, 0) == CIMBALOTY_TOO_LONG);
	CHECK(cimbaloty_enter_begin(&e, long_text, 256, 32767, 0) == CIMBALOTY_OK && cimbaloty_enter_begin(&e, "X", 1, 1, 0) == CIMBALOTY_HAS_ENTRY);
	cimbaloty_enter_free(&e);
	CHECK(cimbaloty_enter_time_over(&e) == CIMBALOTY_NO_ENTRY);
}

static void entered(void)
{
	struct cimbaloty_entry e = CIMBALOTY_ENTRY_NONE;

	CHECK(cimbaloty_enter_begin(&e, text, 9, 31, 2) == CIMBALOTY_OK && cimbaloty_enter_wait(&e) == 1000);
	CHECK(TAKES(&e, "OK\r") == CIMBALOTY_OUTPUT_FIRST * 100);
	gives(&e, text, 10, 3);
	CHECK(TAKES(&e, "") == 0 && TAKES(&e, "AT+CMUX=0\r\r\nOKAY\r\n\r\nO") == 21 && TAKES(&e, "K\n\xF9\x03") == CIMBALOTY_ENTERED * 100 + 2);
	CHECK(cimbaloty_enter_time_over(&e) == CIMBALOTY_NO_ENTRY);
	CHECK(cimbaloty_enter_begin(&e, "at+cmux=0,0,5,127", 17, 127, 0) == CIMBALOTY_OK);
	gives(&e, "at+cmux=0,0,5,127\r", 18, 80);
	CHECK(TAKES(&e, "\r\nERROR\r\nOK\r") == CIMBALOTY_TURNED_DOWN * 100 + 8 && cimbaloty_enter_wait(&e) == 0);
	CHECK(cimbaloty_enter_begin(&e, text, 9, 31, 0) == CIMBALOTY_OK);
	gives(&e, text, 10, 80);
	CHECK(TAKES(&e, "+CME ERROR: 3\n") == CIMBALOTY_TURNED_DOWN * 100 + 14);
}

/* Nothing answers; then the modem does, behind the second closing down. */
static void asked_again(void)
{
	struct cimbaloty_entry e = CIMBALOTY_ENTRY_NONE;

	for (int answers = 0; answers < 2; answers++) {
		CHECK(cimbaloty_enter_begin(&e, text, 9, 31, 2) == CIMBALOTY_OK);
		gives(&e, text, 10, 80);
		CHECK(TAKES(&e, "half a li") == 9);
		for (int again = 0; again < 2; again++) {
			CHECK(cimbaloty_enter_time_over(&e) == CIMBALOTY_OK && cimbaloty_enter_wait(&e) == 300);
			CHECK(TAKES(&e, "OK\r") == CIMBALOTY_OUTPUT_FIRST * 100);
			gives(&e, closing, sizeof closing - 1, 7);
			CHECK(TAKES(&e, "\xF9\x01\xEF\x05\xC1\x01\x93\xF9\r\nOK\r\nERROR\r\nE") == 22);
			CHECK(cimbaloty_enter_time_over(&e) == CIMBALOTY_OK && cimbaloty_enter_wait(&e) == 1000);
			gives(&e, text, 10, 4);
		}
		if (answers)
			CHECK(TAKES(&e, "OK\r") == CIMBALOTY_ENTERED * 100 + 3);
		else
			CHECK(TAKES(&e, "O") == 1 && cimbaloty_enter_time_over(&e) == CIMBALOTY_SILENT);
		CHECK(cimbaloty_enter_time_over(&e) == CIMBALOTY_NO_ENTRY);
	}
	CHECK(cimbaloty_enter_begin(&e, text, 9, 31, 0) == CIMBALOTY_OK && cimbaloty_enter_time_over(&e) == CIMBALOTY_SILENT);
}

/* The text wasn't wholly given before the time was over. */
static void cut_short(void)
{
	struct cimbaloty_entry e = CIMBALOTY_ENTRY_NONE;
	uint8_t room[4];

	CHECK(cimbaloty_enter_begin(&e, text, 9, 31, 1) == CIMBALOTY_OK && cimbaloty_enter_output(&e, room, 4) == 4);
	CHECK(cimbaloty_enter_time_over(&e) == CIMBALOTY_OK && cimbaloty_enter_output(&e, room, 4) == 4 && room[0] == 0xF9);
	CHECK(cimbaloty_enter_time_over(&e) == CIMBALOTY_OK);
	gives(&e, text, 10, 80);
	cimbaloty_enter_free(&e);
}

static void names(void)
{
	CHECK(!strcmp(cimbaloty_answer_name(CIMBALOTY_NO_ANSWER), "NO_ANSWER") && !strcmp(cimbaloty_answer_name(0), "?"));
	CHECK(!strcmp(cimbaloty_answer_name(13), "BUSY") && !strcmp(cimbaloty_answer_name(14), "?"));
	CHECK(!strcmp(cimbaloty_status_name(0), "OK") && !strcmp(cimbaloty_status_name(2), "FULL or BAD_N1"));
	CHECK(!strcmp(cimbaloty_status_name(55), "AMBIGUOUS") && !strcmp(cimbaloty_status_name(56), "?"));
	CHECK(!strcmp(cimbaloty_status_name(CIMBALOTY_SILENT), "SILENT") && !strcmp(cimbaloty_status_name(32), "?"));
	CHECK(!strcmp(cimbaloty_kind_name(CIMBALOTY_CREG), "CREG") && !strcmp(cimbaloty_kind_name(71), "OWN") && !strcmp(cimbaloty_kind_name(72), "?"));
	CHECK(!strcmp(cimbaloty_state_name(CIMBALOTY_IS_SHUT), "SHUT") && !strcmp(cimbaloty_state_name(0), "?"));
}

/* A UA of 0; information of 3 octets on 1, which has flags in it; one with a wrong check octet; 32 octets on 2. */
static void counts(void)
{
	static const uint8_t octets[] = { 'x', 0xF9, 0x03, 0x73, 0x01, 0xD7, 0xF9, 0xF9, 0x05, 0xEF, 0x07, 0xF9, 'O', 0xF9, 0xB2, 0xF9,
		0x05, 0xEF, 0x05, 'O', 'K', 0x00, 'y', 0xF9, 0x09, 0xEF, 0x41, '0', '1', '2', '3', '4', '5', '6', '7', '8', '9', 'a', 'b',
		'c', 'd', 'e', 'f', '0', '1', '2', '3', '4', '5', '6', '7', '8', '9', 'a', 'b', 'c', 'd', 'e', 'f', 0xA1, 0xF9 };

	for (size_t piece = 1; piece <= sizeof octets; piece++) {
		struct cimbaloty_frames f = { 0 };

		cimbaloty_frames_begin(&f, 31);
		for (size_t at = 0; at < sizeof octets; at += piece)
			cimbaloty_frames_take(&f, octets + at, at + piece < sizeof octets ? piece : sizeof octets - at);
		CHECK(f.whole == 3 && f.bad == 1 && f.longer == 1 && f.longer_on == 4 && f.outside == 2 && f.longest == 32);
	}
}

/* The modem shuts a connection by itself, which is told once. */
static void states(void)
{
	static const uint8_t shuts[] = { 0xF9, 0x05, 0x53, 0x01, 0x5E, 0xF9 };
	struct cimbaloty_states told_states = { { 0 } };
	struct pair *p = begin(64, 64);
	char room[8];
	struct cimbaloty none = CIMBALOTY_NONE;
	uint8_t d = 99;
	size_t taken;

	CHECK(cimbaloty_poll_state(&none, &told_states, &d) == CIMBALOTY_NO_DRIVER && d == 99);
	told(p, 1, CIMBALOTY_OPENED, room, sizeof room);
	opened(p, 1, 2);
	CHECK(cimbaloty_poll_state(&p->c, &told_states, &d) == CIMBALOTY_OK && d == 0 && told_states.of[0] == CIMBALOTY_IS_OPENED);
	CHECK(cimbaloty_poll_state(&p->c, &told_states, &d) == CIMBALOTY_OK && d == 1 && told_states.of[1] == CIMBALOTY_IS_OPENED);
	CHECK(cimbaloty_poll_state(&p->c, &told_states, &d) == CIMBALOTY_NOTHING && d == 1);
	CHECK(cimbaloty_input(&p->c, shuts, sizeof shuts, &taken) == CIMBALOTY_OK);
	d = 99;
	CHECK(cimbaloty_poll_state(&p->c, &told_states, &d) == CIMBALOTY_OK && d == 1 && told_states.of[1] == CIMBALOTY_IS_SHUT);
	CHECK(cimbaloty_poll_state(&p->c, &told_states, &d) == CIMBALOTY_NOTHING);
	end(p);
}

void entries(void)
{
	entry_refusals();
	entered();
	asked_again();
	cut_short();
	names();
	counts();
	states();
}
