#ifndef PORT_BOX_H
#define PORT_BOX_H

#include "case_file.h"
#include "port.h"

enum {
    /* One more than a port may have. */
    BOX_BAYS = PORT_MOST_BAYS + 1,
    BOX_NUMBERS = QUEUE_NUMBERS + 1
};

/* What a case lends to a port; not always a valid one. */
struct port_box {
    size_t count;
    struct bay bays[BOX_BAYS];
    size_t length;
    uint64_t queue[BOX_NUMBERS];
};

struct port box_port(struct port_box *box);

/* All bays are the same, and none waits. */
struct port_box box_of(size_t count, struct bay bay);
struct port_box fresh_box(size_t count);

/* Every phy is in a connection. */
struct port_box connected_box(size_t count);

/* At the queue's end, judged by nobody. */
void box_add_open(struct port_box *box, struct phy_event open);

/* Numbered Opens, from the next number on that the queue's length gives. */
void box_add_opens(struct port_box *box, size_t count);

/* No two alike, so that their order shows. That of 0 is all zero but for its rate. */
struct phy_event numbered_open(uint64_t number);

struct bay sample_bay(uint64_t link, uint64_t port);

/* Whether the phy takes the event and is free after it, as it may have been before. */
bool event_frees(const struct bay *bay, const struct phy_event *event);

struct shelf_event to_phy(uint64_t number, struct phy_event event);
struct shelf_event to_port(struct phy_event event);

/* So many in twelve are Tx Opens to the port itself. The others are likely to do something next, or now and then are
 * anything, also to phys that there are not. All of them can be written in a trace. */
struct shelf_event random_shelf_event(struct case_file *file, const struct port_box *now, uint64_t opens_in_twelve);

/* The numbers of the box in a case: the count and the bays, the queue's length and the queue. */
void case_box(struct case_file *file, const struct port_box *box);

/* A line for each bay, and then one for the queue. */
void expect_box(struct case_file *file, enum case_kind kind, const struct port_box *box);

#endif
