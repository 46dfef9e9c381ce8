#ifndef BAY_H
#define BAY_H

#include "phy.h"

/* The recorder's counter of microseconds: an event that a bay knows, and its phy does not. */
enum { EVENT_TIME_STAMP = 16 };

#define BAY_MOST_COUNTER UINT64_C(0xFFFFFFFF)

/* A phy with its recorder's clock. base: the counter of the last stamp, and 0 before the first.
 * base_set is a flag, 0 or 1; a record with any other number there is no valid one. */
struct bay {
    struct phy phy;
    uint64_t base;
    uint64_t base_set;
};

/* tick: the one of a stamp's gap that reported it, counted from 1; 0 if there is no code or no stamp. */
struct bay_report {
    uint64_t code;
    uint64_t tick;
};

struct bay_result {
    uint64_t refusal;
    struct bay_report answer;
    struct bay_report notice;
    struct bay_report second_notice;
    struct bay_report sent;
    struct phy_request answered;
    struct bay bay;
};

struct bay bay_fresh(void);
bool bay_is_valid(const struct bay *bay);

bool bay_code_is_known(uint64_t code);
size_t bay_argument_count(uint64_t code);

/* For a known code; an argument the event lacks fits only as zero. */
bool bay_argument_fits(uint64_t code, size_t which, uint64_t value);
bool bay_event_is_valid(const struct phy_event *event);

struct bay_result bay_step(struct bay bay, struct phy_event event);

#endif
