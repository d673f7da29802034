/* A plain decoder of the basic option: a state machine that looks at each octet, as drivers of
 * serial lines have it. Where a candidate fails, it goes on behind the candidate's first flag. */
#include "plain.h"

#include <stdbool.h>

enum { FLAG = 0xF9, LONGEST = 32767 };

static uint8_t table[256];

/* x^8 + x^2 + x + 1, low bit first. */
static void make_table(void)
{
	for (int octet = 0; octet < 256; octet++) {
		uint8_t left = octet;

		for (int bit = 0; bit < 8; bit++)
			left = left & 1 ? left >> 1 ^ 0xE0 : left >> 1;
		table[octet] = left;
	}
}

uint8_t plain_check(const uint8_t *octets, size_t length)
{
	uint8_t left = 0xFF;

	if (table[1] == 0)
		make_table();
	for (size_t i = 0; i < length; i++)
		left = table[left ^ octets[i]];
	return 0xFF - left;
}

enum state { HUNT, ADDRESS, CONTROL, LENGTH, LENGTH_HIGH, INFORMATION, CHECK, CLOSE };

struct plain {
	enum state state;
	uint8_t check;
	uint16_t n1, most, size, count;
	uint8_t information[LONGEST];
};

static bool is_control(uint8_t octet)
{
	switch (octet & ~0x10) {
	case 0x2F: case 0x63: case 0x0F: case 0x43: case 0xEF:
		return true;
	}
	return false;
}

enum took { GOES_ON, FAILED, OPENED, READ };

/* Takes one octet: it goes on, the candidate fails, a flag opens one, or the flag ends a frame. */
static enum took take(struct plain *p, uint8_t octet)
{
	switch (p->state) {
	case HUNT:
		if (octet != FLAG)
			return GOES_ON;
		p->state = ADDRESS;
		return OPENED;
	case ADDRESS:
		if (octet == FLAG)
			return OPENED;
		if ((octet & 1) == 0 || octet >> 2 > 61)
			return FAILED;
		p->check = table[0xFF ^ octet];
		p->state = CONTROL;
		return GOES_ON;
	case CONTROL:
		if (!is_control(octet))
			return FAILED;
		p->most = (octet & ~0x10) == 0xEF ? p->n1 : 0;
		p->check = table[p->check ^ octet];
		p->state = LENGTH;
		return GOES_ON;
	case LENGTH:
		p->size = octet >> 1;
		p->count = 0;
		p->check = table[p->check ^ octet];
		p->state = octet & 1 ? (p->size > 0 ? INFORMATION : CHECK) : LENGTH_HIGH;
		return p->size > p->most ? FAILED : GOES_ON;
	case LENGTH_HIGH:
		p->size += octet << 7;
		p->check = table[p->check ^ octet];
		p->state = p->size > 0 ? INFORMATION : CHECK;
		return p->size > p->most ? FAILED : GOES_ON;
	case INFORMATION:
		p->information[p->count++] = octet;
		if (p->count == p->size)
			p->state = CHECK;
		return GOES_ON;
	case CHECK:
		p->state = CLOSE;
		return octet == 0xFF - p->check ? GOES_ON : FAILED;
	case CLOSE:
		p->state = ADDRESS;
		return octet == FLAG ? READ : FAILED;
	}
	return FAILED;
}

struct counts plain_decode(const uint8_t *octets, size_t length, uint16_t n1)
{
	static struct plain p;
	struct counts read = { 0, 0 };
	size_t opened = 0;

	if (table[1] == 0)
		make_table();
	p.state = HUNT;
	p.n1 = n1;
	for (size_t i = 0; i < length; i++)
		switch (take(&p, octets[i])) {
		case GOES_ON:
			break;
		case FAILED:
			p.state = HUNT;
			i = opened;
			break;
		case OPENED:
			opened = i;
			break;
		case READ: /* its closing flag may open the next */
			read.frames++;
			read.information += p.size;
			opened = i;
		}
	return read;
}
