/* dialect.h - the modem's codes, by name or from a file. */
#ifndef DIALECT_H
#define DIALECT_H

#include "cimbaloty.h"

/* Makes the dialect `common`, `dialling`, or that of the file of this name, with one rule in each line (docs/FORMATS.md,
 * "The file of --dialect"). Where the modem dials, lines that begin with CONNECT end an answer too (V.250, 5.7.1). Where it can't,
 * there is none, and the reason was written to standard error. */
bool dialect_read(struct cimbaloty_dialect *d, const char *name, bool dials);

#endif
