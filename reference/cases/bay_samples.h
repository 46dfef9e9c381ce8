#ifndef BAY_SAMPLES_H
#define BAY_SAMPLES_H

#include "bay.h"

enum {
    VALID_PAIRS = 12,
    MOST_RECORDS = 64
};

struct phy_pair {
    uint64_t link;
    uint64_t port;
};

extern const struct phy_pair valid_pairs[VALID_PAIRS];

struct record_list {
    size_t count;
    struct phy records[MOST_RECORDS];
};

/* Valid records of a valid pair: all that decides what becomes of a gap, at its ends. */
struct record_list gap_records(struct phy_pair pair);

/* Any valid one. */
struct phy pair_record(struct phy_pair pair);

struct bay bay_with_base(struct phy phy, uint64_t base);
struct bay bay_without_base(struct phy phy);

#endif
