#ifndef SHELF_LOADS_H
#define SHELF_LOADS_H

#include <stddef.h>
#include <stdint.h>

/* How many phys the shelf has that is prepared next. */
void begin_shelf(size_t phys);

/* A shelf trace of so many events, for runs. */
void prepare_shelf_ticks(size_t count);
void prepare_shelf_mixed(size_t count);

/* Shelf events one by one, for single steps. */
void prepare_port_ticks(size_t count);
void prepare_port_mixed(size_t count);

/* What is prepared, by a fresh port; each gives a sum, so that none of it can be left out. */
uint64_t our_shelf_run(size_t count);
uint64_t their_shelf_run(size_t count);
uint64_t our_port_steps(size_t count);
uint64_t their_port_steps(size_t count);

#endif
