#ifndef LISTING_H
#define LISTING_H

#include "bay.h"

#include <stdio.h>

enum { LISTING_MOST_BYTES = 65536 };

/* The lister's whole output for a trace. */
void list_trace(FILE *out, const uint8_t *trace, size_t length);

/* ---- What a listing of a shelf trace has too ---- */

#define LISTING_COLUMNS "event refusal answer notice sent link port"

/* What stands under these columns for an event of this code. */
void list_columns(FILE *out, uint64_t code, const struct bay_result *step);

/* True if the trace is too long to be listed, having said so. */
bool list_too_long(FILE *out, size_t length);

/* refusal: of the fault at the place, or 0 if the trace ends there. */
void list_last_line(FILE *out, uint64_t refusal, size_t place, size_t events);

#endif
