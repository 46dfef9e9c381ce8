#ifndef TRACE_H
#define TRACE_H

#include "phy.h"

enum event_found {
    FOUND_EVENT = 0,
    FOUND_END = 1,
    FOUND_FAULT = 2
};

/* A trace has a bay's events, stamps among them. At the end and on a fault the event is zero and next is the place
 * given. */
struct event_read {
    uint64_t found;
    uint64_t refusal;
    size_t next;
    struct phy_event event;
};

struct event_written {
    uint64_t refusal;
    size_t length;
};

struct event_read event_read(const uint8_t *bytes, size_t length, size_t place);

/* Of a valid event, in the shortest form. */
size_t event_length(const struct phy_event *event);

struct event_written event_write(const struct phy_event *event, uint8_t *buffer, size_t length, size_t place);

#endif
