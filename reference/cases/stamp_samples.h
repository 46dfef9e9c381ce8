#ifndef STAMP_SAMPLES_H
#define STAMP_SAMPLES_H

#include "bay.h"
#include "case_file.h"

enum { STAMPED_TOUR = 36 };

/* The ends of the counter's range and of its groups, and numbers that are too large for it. */
extern const uint64_t counters[];
extern const size_t counter_count;
extern const uint64_t bad_counters[];
extern const size_t bad_counter_count;

/* From a fresh phy: every answer and notice that ticks give, two notices in a gap, a refusal. Ticks and resets stand
 * between stamps, and the counter goes round. */
extern const struct phy_event stamped_tour[STAMPED_TOUR];

struct phy_event stamp_at(uint64_t counter);

/* A stamp so many ticks behind the base; the counter goes round. */
struct phy_event stamp_behind(uint64_t base, uint64_t ticks);

/* Of every width. */
uint64_t random_counter(struct case_file *file);

/* Mostly about as long as a timer runs, or twice as long. */
uint64_t random_gap(struct case_file *file);

/* A random gap behind the base, if there is one. */
struct phy_event random_stamp(struct case_file *file, const struct bay *now);

/* What is likely to do something next, with stamps in place of most ticks, and now and then anything. */
struct phy_event random_bay_event(struct case_file *file, const struct bay *now);

#endif
