/* frames.c - counts the frames of 27.010's basic option in octets that pass. It only looks on: the library reads them. */
#include "cimbaloty.h"

enum { FLAG = 0xF9, POLL = 0x10, RIGHT = 0xCF };
enum { SABM = 0x2F, UA = 0x63, DM = 0x0F, DISC = 0x43, UIH = 0xEF };
enum { OUTSIDE, ADDRESS, CONTROL, LENGTH, LENGTH_HIGH, INFORMATION, CHECK, CLOSING };

void cimbaloty_frames_begin(struct cimbaloty_frames *f, uint16_t n1)
{
	f->inside.n1 = n1;
	f->inside.place = OUTSIDE;
}

/* 27.010, 5.2.1.6 and annex B: generator x^8 + x^2 + x + 1, low bit first. */
static uint8_t checked(uint8_t check, uint8_t octet)
{
	check ^= octet;
	for (int bit = 0; bit < 8; bit++)
		check = (uint8_t)(check & 1 ? check >> 1 ^ 0xE0 : check >> 1);
	return check;
}

static void set_bad(struct cimbaloty_frames *f, uint8_t octet)
{
	f->bad++;
	f->inside.place = octet == FLAG ? ADDRESS : OUTSIDE;
}

/* The octet of the control field; the bit P/F may be set. */
static void take_control(struct cimbaloty_frames *f, uint8_t octet)
{
	f->inside.control = (uint8_t)(octet & ~POLL);
	f->inside.check = checked(f->inside.check, octet);
	if (f->inside.control == SABM || f->inside.control == UA || f->inside.control == DM || f->inside.control == DISC || f->inside.control == UIH)
		f->inside.place = LENGTH;
	else
		set_bad(f, octet);
}

/* The first or second octet of the length; bit 1 of the first says whether there is no second. */
static void take_length(struct cimbaloty_frames *f, uint8_t octet)
{
	f->inside.check = checked(f->inside.check, octet);
	if (f->inside.place == LENGTH) {
		f->inside.length = octet >> 1;
		f->inside.place = octet & 1 ? INFORMATION : LENGTH_HIGH;
	} else {
		f->inside.length |= (unsigned)octet << 7;
		f->inside.place = INFORMATION;
	}
	f->inside.seen = 0;
	if (f->inside.place == INFORMATION && f->inside.length == 0)
		f->inside.place = CHECK;
}

static void take_closing(struct cimbaloty_frames *f, uint8_t octet)
{
	if (octet != FLAG) {
		set_bad(f, octet);
		return;
	}
	f->whole++;
	if (f->inside.length > f->inside.n1) {
		f->longer++;
		f->longer_on |= UINT64_C(1) << f->inside.dlci;
	}
	if (f->inside.length > f->longest)
		f->longest = f->inside.length;
	f->inside.place = ADDRESS;      /* its flag may begin the next */
}

static void take(struct cimbaloty_frames *f, uint8_t octet)
{
	switch (f->inside.place) {
	case OUTSIDE:
		f->outside += octet != FLAG;
		f->inside.place = octet == FLAG ? ADDRESS : OUTSIDE;
		break;
	case ADDRESS:
		if (octet == FLAG)
			break;
		f->inside.check = checked(0xFF, octet);
		f->inside.dlci = octet >> 2;
		f->inside.place = octet & 1 ? CONTROL : OUTSIDE;
		f->outside += !(octet & 1);
		break;
	case CONTROL:
		take_control(f, octet);
		break;
	case LENGTH:
	case LENGTH_HIGH:
		take_length(f, octet);
		break;
	case INFORMATION:
		if (f->inside.control != UIH)   /* of UIH the check octet covers only the head */
			f->inside.check = checked(f->inside.check, octet);
		if (++f->inside.seen == f->inside.length)
			f->inside.place = CHECK;
		break;
	case CHECK:
		if (checked(f->inside.check, octet) == RIGHT)
			f->inside.place = CLOSING;
		else
			set_bad(f, octet);
		break;
	default:
		take_closing(f, octet);
	}
}

void cimbaloty_frames_take(struct cimbaloty_frames *f, const uint8_t *octets, size_t length)
{
	for (size_t at = 0; at < length; at++)
		take(f, octets[at]);
}
