#ifndef BAY_WALK_H
#define BAY_WALK_H

#include "bay.h"
#include "case_file.h"

enum { MOST_BAY_EVENTS = 80 };

/* now: where the events so far lead, so that a seeded walk can choose what is likely next. */
struct bay_walk {
    struct bay start;
    struct bay now;
    size_t count;
    struct phy_event events[MOST_BAY_EVENTS];
};

void bay_walk_start(struct bay_walk *walk, struct bay start);
void bay_walk_add(struct bay_walk *walk, struct phy_event event);

/* As one case, with the lines expected of it. */
void bay_walk_write(struct case_file *file, const struct bay_walk *walk);

#endif
