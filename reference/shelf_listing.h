#ifndef SHELF_LISTING_H
#define SHELF_LISTING_H

#include "port.h"

#include <stdio.h>

/* One more than a port may have. */
enum { SHELF_LISTING_MOST_PHYS = PORT_MOST_BAYS + 1 };

/* The lister's whole output for a shelf trace, from so many fresh phys, at most SHELF_LISTING_MOST_PHYS, and a queue in
 * which none waits. Where a port cannot have that many phys, each event is refused, and the listing goes on.
 * Refusal to sent are the event's own; link and port those of its phy, handed and waiting those of the port, when the
 * hand-out is over. */
void list_shelf_trace(FILE *out, size_t phys, const uint8_t *trace, size_t length);

#endif
