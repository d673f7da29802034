/* A plain decoder of the basic option: a state machine that looks at each octet. */
#include <stddef.h>
#include <stdint.h>

struct counts {
	size_t frames, information;
};

/* The check octet of these octets (27.010, 5.2.1.6). */
uint8_t plain_check(const uint8_t *octets, size_t length);

/* Counts the frames in these octets and their information. */
struct counts plain_decode(const uint8_t *octets, size_t length, uint16_t n1);
