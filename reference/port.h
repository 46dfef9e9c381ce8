#ifndef PORT_H
#define PORT_H

#include "bay.h"

enum {
    PORT_MOST_BAYS = 8,
    QUEUE_MOST_OPENS = 32,
    /* Six for each Open, in the order of Tx Open's arguments. */
    QUEUE_NUMBERS = QUEUE_MOST_OPENS * PHY_ARGUMENTS,
    /* In the place of a phy's number. */
    THE_PORT_ITSELF = 127,
    HANDED_TO_NONE = 127
};

/* A row of bays and a queue of Opens, both lent: a step changes them where they are. The bay's place in the row is
 * the number of its phy. The oldest Open stands first in the queue, and behind the last one all is zero. */
struct port {
    struct bay *bays;
    size_t count;
    uint64_t *queue;
    size_t length;
};

/* number: that of a phy, or THE_PORT_ITSELF. */
struct shelf_event {
    uint64_t number;
    struct phy_event event;
};

/* The event's own reports, as a bay gives them, and behind them the hand-out's. handed: the number of the phy that
 * got an Open. Of a refused event all is zero but for the refusal, and handed says none. */
struct port_result {
    uint64_t refusal;
    struct bay_report answer;
    struct bay_report notice;
    struct bay_report second_notice;
    struct bay_report sent;
    struct phy_request answered;
    uint64_t handed;
    uint64_t handed_sent;
};

/* Whether the port can take events at all: 1 to 8 bays, each a valid one; a queue of 192 numbers, its Opens in their
 * ranges and nothing behind them; no Open waiting beside a free phy. Any row and any queue may be asked about; of a
 * row that is too long no bay is looked at, and of a queue of another length no number. */
bool port_is_valid(const struct port *port);

/* Free: link L0 and port P1. */
bool port_bay_is_free(const struct bay *bay);

/* The number of the lowest free phy, or the count of phys if there is none. */
size_t port_lowest_free(const struct port *port);

/* How many Opens wait; the queue must have its 192 numbers. */
size_t port_waiting(const struct port *port);

/* Why the port itself refuses the event: 1, 2, 12 or 11, in this order, or 0. It changes nothing. A phy may still
 * refuse what the port does not. */
uint64_t port_refusal(const struct port *port, const struct shelf_event *event);

/* A refused event leaves the row and the queue as they are. */
struct port_result port_step(struct port port, struct shelf_event event);

#endif
