/* pair.h - a driver and the fake modem at the other end of its line. */
#ifndef PAIR_H
#define PAIR_H

#include "cimbaloty.h"
#include "fake.h"
#include <stdio.h>
#include <stdlib.h>
#include <string.h>

#define CHECK(fact) do { if (!(fact)) { printf("%s:%d: not so: %s\n", __FILE__, __LINE__, #fact); exit(1); } } while (0)

struct pair {
	struct cimbaloty c;
	struct fake f;
	size_t out, in;         /* octets a piece, each way */
	unsigned long refused;
};

/* What has to go goes and what the modem says comes, until neither does. */
void pump(struct pair *p);

/* A pair without a driver yet. */
struct pair *pair_of(size_t out, size_t in);

/* A driver of a standard modem, whose request 1 has opened connection 0. */
struct pair *begin(size_t out, size_t in);

/* Frees both; the modem saw no bad frame. */
void end(struct pair *p);

/* The next outcome is this, of this request; its text is put into `text`, with a 0. */
void told(struct pair *p, uint64_t number, uint8_t answer, char *text, size_t room);

/* The number of the request for a command. */
uint64_t asked(struct pair *p, uint8_t dlci, const char *line);

/* The request of this number opens a connection. */
void opened(struct pair *p, uint8_t dlci, uint64_t number);

/* Rules of a dialect, and kinds of its own, by strings. */
#define FINAL(d, form, text) cimbaloty_dialect_add_final(d, form, text, strlen(text))
#define UNSOLICITED(d, form, text, name) cimbaloty_dialect_add_unsolicited(d, form, text, strlen(text), name, strlen(name))
#define KIND(d, name) cimbaloty_dialect_kind(d, name, strlen(name))

/* dialects.c: what rules are taken, and what lines are by them. */
void rules(void);
void dialects(void);

/* entries.c: entries, and what stands beside the driver. */
void entries(void);

#endif
