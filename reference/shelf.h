#ifndef SHELF_H
#define SHELF_H

#include "port.h"
#include "trace.h"

/* A shelf trace has a number before each event: that of a phy, of the port itself, or any other, which the port
 * judges and not the reader. At the end and on a fault the event is zero, its number too, and next is the place
 * given. Found: as of a trace of one phy. */
struct shelf_read {
    uint64_t found;
    uint64_t refusal;
    size_t next;
    struct shelf_event event;
};

struct shelf_read shelf_read(const uint8_t *bytes, size_t length, size_t place);

struct event_written shelf_write(const struct shelf_event *event, uint8_t *buffer, size_t length, size_t place);

#endif
