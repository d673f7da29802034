/* dialects.c - what rules a dialect takes, and what lines of the fake modem are by them. */
#include "pair.h"

void rules(void)
{
	struct cimbaloty c = CIMBALOTY_NONE;
	struct cimbaloty_dialect d = CIMBALOTY_DIALECT_NONE;
	char text[66] = "";

	CHECK(FINAL(&d, 0, "SEND FAIL") == CIMBALOTY_NO_DIALECT && UNSOLICITED(&d, 9, "", "") == CIMBALOTY_NO_DIALECT);
	CHECK(KIND(&d, "CEREG") == 0);
	CHECK(cimbaloty_new_with_dialect(&c, &d, 31, 0, 0, 1) == CIMBALOTY_NO_DIALECT);
	CHECK(cimbaloty_new_with_dialect(&c, &d, 30, 0x80, 0, 1) == CIMBALOTY_BAD_KINDS);
	CHECK(cimbaloty_new_with_dialect(&c, &d, 30, 0, 0, 1) == CIMBALOTY_BAD_N1);
	CHECK(cimbaloty_dialect_new(&d) == CIMBALOTY_OK && cimbaloty_dialect_new(&d) == CIMBALOTY_HAS_DIALECT);
	CHECK(cimbaloty_dialect_common(&d) == CIMBALOTY_HAS_DIALECT && cimbaloty_dialect_dialling(&d) == CIMBALOTY_HAS_DIALECT);
	CHECK(KIND(&d, "CEREG") == 0 && cimbaloty_dialect_kind(&d, NULL, 0) == 0);
	CHECK(FINAL(&d, 0, "SEND FAIL") == CIMBALOTY_BAD_FORM && FINAL(&d, 6, "SEND FAIL") == CIMBALOTY_BAD_FORM);
	CHECK(cimbaloty_dialect_add_final(&d, CIMBALOTY_LINE, NULL, 0) == CIMBALOTY_NO_TEXT);
	memset(text, '#', 65);
	CHECK(FINAL(&d, CIMBALOTY_LINE, text) == CIMBALOTY_LONG_TEXT);
	CHECK(FINAL(&d, CIMBALOTY_LINE, "SEND\rFAIL") == CIMBALOTY_LINE_END);
	CHECK(UNSOLICITED(&d, CIMBALOTY_LINE, "\n", "A B") == CIMBALOTY_LINE_END);
	CHECK(UNSOLICITED(&d, CIMBALOTY_PREFIX, "A", "A B") == CIMBALOTY_BAD_NAME);
	CHECK(cimbaloty_dialect_add_unsolicited(&d, CIMBALOTY_PREFIX, "#", 1, NULL, 0) == CIMBALOTY_BAD_NAME);
	CHECK(FINAL(&d, CIMBALOTY_PREFIX, "A") == CIMBALOTY_IS_COMMAND);
	CHECK(FINAL(&d, CIMBALOTY_PREFIX, "R") == CIMBALOTY_AMBIGUOUS && UNSOLICITED(&d, CIMBALOTY_PREFIX, "O", "O") == CIMBALOTY_AMBIGUOUS);
	CHECK(FINAL(&d, CIMBALOTY_LINE, "SEND FAIL") == CIMBALOTY_OK);
	CHECK(UNSOLICITED(&d, CIMBALOTY_PREFIX, "SEND ", "SENT") == CIMBALOTY_AMBIGUOUS && KIND(&d, "SENT") == 0);
	CHECK(UNSOLICITED(&d, CIMBALOTY_LINE, "RDY", "READY") == CIMBALOTY_OK && KIND(&d, "READY") == CIMBALOTY_OWN);
	text[64] = 0;
	CHECK(UNSOLICITED(&d, CIMBALOTY_PREFIX, text, text) == CIMBALOTY_OK && KIND(&d, text) == CIMBALOTY_OWN + 1);
	CHECK(UNSOLICITED(&d, CIMBALOTY_PREFIX, "PB DONE", "READY") == CIMBALOTY_OK && KIND(&d, "READY") == CIMBALOTY_OWN);
	for (int i = 4; i < 64; i++)
		CHECK(FINAL(&d, CIMBALOTY_LINE, "SEND FAIL") == CIMBALOTY_OK);
	CHECK(FINAL(&d, CIMBALOTY_LINE, "") == CIMBALOTY_TOO_MANY_RULES);
	CHECK(UNSOLICITED(&d, CIMBALOTY_LINE, "", "") == CIMBALOTY_TOO_MANY_RULES);
	CHECK(cimbaloty_new_with_dialect(&c, &d, 31, 0, 0, 1) == CIMBALOTY_OK);
	CHECK(cimbaloty_new_with_dialect(&c, &d, 31, 0, 0, 1) == CIMBALOTY_HAS_DRIVER);
	cimbaloty_free(&c);
	CHECK(KIND(&d, "READY") == CIMBALOTY_OWN);
	cimbaloty_dialect_free(&d);
	cimbaloty_dialect_free(&d);
	CHECK(KIND(&d, "READY") == 0);
	CHECK(cimbaloty_dialect_dialling(&d) == CIMBALOTY_OK && KIND(&d, "CEREG") == CIMBALOTY_OWN && KIND(&d, "CTZE") == CIMBALOTY_OWN + 7);
	CHECK(UNSOLICITED(&d, CIMBALOTY_PREFIX, "NO CARR", "NO") == CIMBALOTY_AMBIGUOUS);
	cimbaloty_dialect_free(&d);
}

/* The same with a dialect, which is freed at once, and these kinds of its own. */
static struct pair *begin_with(struct cimbaloty_dialect *d, uint64_t own)
{
	struct pair *p = pair_of(4096, 4096);
	uint64_t n;
	char text[8];

	CHECK(cimbaloty_new_with_dialect(&p->c, d, 31, CIMBALOTY_ALL_KINDS, own, 1) == CIMBALOTY_OK);
	cimbaloty_dialect_free(d);
	CHECK(cimbaloty_open(&p->c, 0, &n) == CIMBALOTY_OK && n == 1);
	pump(p);
	told(p, 1, CIMBALOTY_OPENED, text, sizeof text);
	return p;
}

/* Of each command what it is told, and of each line that came beside it the kind and the text. */
void dialects(void)
{
	struct cimbaloty_dialect d = CIMBALOTY_DIALECT_NONE;
	struct cimbaloty_line u;
	struct cimbaloty_outcome o;
	struct pair *p = begin(4096, 4096);
	char text[256];
	uint64_t n;

	told(p, 1, CIMBALOTY_OPENED, text, sizeof text);
	opened(p, 1, 2);
	n = asked(p, 1, "AT+MIXED");
	pump(p);
	told(p, n, CIMBALOTY_DONE, text, sizeof text);
	CHECK(!strcmp(text, "+MIXED: 1\n+CEREG: 2\n+MIXED: 2\nOK\n"));
	asked(p, 1, "AT+FAIL");
	pump(p);
	CHECK(cimbaloty_peek_outcome(&p->c, &o) == CIMBALOTY_NOTHING);
	end(p);

	CHECK(cimbaloty_dialect_common(&d) == CIMBALOTY_OK && UNSOLICITED(&d, CIMBALOTY_LINE, "RDY", "READY") == CIMBALOTY_OK);
	uint16_t cereg = KIND(&d, "CEREG"), ready = KIND(&d, "READY");
	CHECK(cereg == CIMBALOTY_OWN && ready == CIMBALOTY_OWN + 8);
	p = begin_with(&d, CIMBALOTY_OWN_BIT(cereg) | CIMBALOTY_OWN_BIT(ready));
	opened(p, 1, 2);
	n = asked(p, 1, "AT+FAIL");
	pump(p);
	told(p, n, CIMBALOTY_DONE, text, sizeof text);
	CHECK(!strcmp(text, "+CMS ERROR: 500\n"));
	n = asked(p, 1, "AT+MIXED");
	pump(p);
	told(p, n, CIMBALOTY_DONE, text, sizeof text);
	CHECK(!strcmp(text, "+MIXED: 1\n+MIXED: 2\nOK\n"));
	fake_reports(&p->f, 1, "+CTZV: 4");
	fake_reports(&p->f, 1, "RDY");
	pump(p);
	CHECK(cimbaloty_poll_line(&p->c, &u, text, sizeof text) == CIMBALOTY_OK && u.kind == cereg && u.dlci == 1);
	CHECK(u.length == 9 && !memcmp(text, "+CEREG: 2", 9));
	CHECK(cimbaloty_poll_line(&p->c, &u, text, sizeof text) == CIMBALOTY_OK && u.kind == ready && !memcmp(text, "RDY", 3));
	CHECK(cimbaloty_poll_line(&p->c, &u, text, sizeof text) == CIMBALOTY_NOTHING);
	end(p);

	CHECK(cimbaloty_dialect_new(&d) == CIMBALOTY_OK && UNSOLICITED(&d, CIMBALOTY_OPEN_REPORT, "+CEREG:", "CEREG") == CIMBALOTY_OK);
	p = begin_with(&d, 0);
	opened(p, 1, 2);
	n = asked(p, 1, "AT+MIXED");
	pump(p);
	told(p, n, CIMBALOTY_DONE, text, sizeof text);
	CHECK(!strcmp(text, "+MIXED: 1\n+MIXED: 2\nOK\n") && cimbaloty_peek_line(&p->c, &u) == CIMBALOTY_NOTHING);
	end(p);
}
