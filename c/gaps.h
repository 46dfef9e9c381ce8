#ifndef GAPS_H
#define GAPS_H

#include <stddef.h>
#include <stdint.h>

extern const size_t gap_count;

const char *gap_name(size_t which);

/* How often the link moves in it, by single ticks. */
unsigned gap_moves(size_t which);

/* The bay that it begins with, and the stamp. */
void prepare_gap(size_t which);

/* The prepared gap so many times, always from the same bay. */
uint64_t our_gaps(size_t count);
uint64_t their_gaps(size_t count);

#endif
