#ifndef DIFFER_H
#define DIFFER_H

#include <stdbool.h>
#include <stddef.h>
#include <stdint.h>

#include "bay.h"
#include "louravela.h"
#include "phy.h"

extern unsigned long long compared_steps;
extern unsigned long long compared_records;
extern unsigned long long compared_runs;
extern unsigned long long compared_events;
extern unsigned long long compared_numbers;

/* Random numbers, most of them near the edges of something. */
bool one_in(uint64_t chances);
uint64_t random_any(void);

/* One of the flags becomes a number that is neither 0 nor 1. */
void spoil_flag(uint64_t *const *flags, uint64_t count);

/* Differences, counted, and the first of them printed. */
void differ(const char *what);
void same(const char *what, uint64_t ours, uint64_t theirs);
void same_bytes(const char *what, const uint8_t *ours, const uint8_t *theirs, size_t length);

/* The reference's phy of the same fields. */
struct phy their_phy(const struct louravela_phy *phy);
void same_open(const struct louravela_open *ours, const struct phy_request *theirs);
void same_phy(const struct louravela_phy *ours, const struct phy *theirs);
void same_bay(const struct louravela_bay *ours, const struct bay *theirs);

/* A known event is valid in a trace; of the random ones some have any number in one of their fields. */
struct louravela_event known_event_of(uint64_t code);
struct louravela_event known_event(void);
struct louravela_event random_event(void);

/* A counter behind the bay's base by a gap after which something may just have happened, or by any number of ticks. */
struct louravela_event next_stamp(const struct louravela_bay *bay);

/* With any numbers in some fields, or good but for a flag. */
struct louravela_phy damaged_phy(struct louravela_phy phy);
struct louravela_bay damaged_bay(struct louravela_bay bay);

/* Steps of the machines. */
struct louravela_phy walk_phy(void);
void walk_dws(void);
void walk_identify(void);
void walk_bay(void);

/* The trace that is written, then perhaps padded or damaged, which may change its length, and then read or run. */
enum { MOST_TRACE = 512 };

extern uint8_t trace[MOST_TRACE];

size_t padded_trace(size_t length);
size_t damaged_trace(size_t length);

/* Any bytes, the same in both. */
void fill_both(uint8_t *ours, uint8_t *theirs, size_t length);

/* Traces, their runs and their numbers. */
void walk_trace(struct louravela_phy phy);
void walk_numbers(void);

/* A port on a lent row and queue, and runs over shelf traces. */
void walk_shelf(void);
void print_shelves(void);

#endif
