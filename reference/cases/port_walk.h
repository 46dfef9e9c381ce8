#ifndef PORT_WALK_H
#define PORT_WALK_H

#include "port_box.h"

enum { MOST_PORT_EVENTS = 240 };

/* now: where the events so far lead. */
struct port_walk {
    struct port_box start;
    struct port_box now;
    size_t count;
    struct shelf_event events[MOST_PORT_EVENTS];
};

void port_walk_start(struct port_walk *walk, const struct port_box *start);
struct port_result port_walk_add(struct port_walk *walk, struct shelf_event event);

/* As one case, with the lines expected of it. */
void port_walk_write(struct case_file *file, const struct port_walk *walk);

#endif
