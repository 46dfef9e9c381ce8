#ifndef INPUTS_H
#define INPUTS_H

#include <stdint.h>

#include "louravela.h"
#include "phy.h"

/* What the inputs of the programs are made of. */

/* Set to a seed, it decides the numbers that follow. */
extern uint64_t random_state;

uint64_t random_number(void);
uint64_t random_below(uint64_t limit);

/* An event without arguments. */
struct louravela_event event_of(uint64_t code);

/* Any of a phy's events. Its address, of a Tx Open or an OPEN, is one of so many from the least on; what else it has is
 * below 100. */
struct louravela_event mixed_event(uint64_t least_address, uint64_t addresses);

/* The same event for the reference. */
struct phy_event their_event(const struct louravela_event *event);

#endif
