#ifndef SHELF_SAMPLES_H
#define SHELF_SAMPLES_H

#include "case_trace.h"
#include "port.h"

enum { SHELF_TOUR = 22 };

/* From two fresh phys: answers at both, every refusal that a run can write of an event, hand-outs at the port's own
 * event, at a tick and at the end of a gap, and stamps of both phys. */
extern const struct shelf_event shelf_tour[SHELF_TOUR];

/* The number in so many groups, and then the event in its shortest form. */
void add_shelf_event(struct byte_string *string, struct shelf_event event, size_t groups);

/* All of its numbers in so many groups; one that needs more has more. */
void add_padded_shelf_event(struct byte_string *string, struct shelf_event event, size_t groups);

#endif
