#ifndef PHY_WALK_H
#define PHY_WALK_H

#include "phy_samples.h"

enum {
    MOST_WALK_ITEMS = 60,
    /* The codes up to it are tried one after the other; 0 and the last two are unknown. */
    MOST_CODE = 17
};

/* now: where the items so far lead, so that a seeded walk can choose what is likely next. */
struct phy_walk {
    struct phy start;
    struct phy now;
    size_t count;
    struct phy_item items[MOST_WALK_ITEMS];
};

void phy_walk_start(struct phy_walk *walk, struct phy start);
void phy_walk_add(struct phy_walk *walk, uint64_t repeat, struct phy_event event);
void phy_walk_add_script(struct phy_walk *walk, const struct phy_item items[SCRIPT_ITEMS]);

/* What is likely to do something next, and now and then anything. */
void phy_walk_add_random(struct case_file *file, struct phy_walk *walk);

/* As one case, with the lines expected of it. */
void phy_walk_write(struct case_file *file, const struct phy_walk *walk);

void phy_single_step(struct case_file *file, struct phy phy, struct phy_event event);

/* Whether the record is a valid one. */
void phy_judge_record(struct case_file *file, struct phy phy);

#endif
