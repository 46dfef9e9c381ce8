#ifndef SHELF_RUN_H
#define SHELF_RUN_H

#include "port.h"
#include "run.h"

/* As of a run of one phy, but for the state: the port is lent, and the run leaves it in the row and the queue. Fault
 * and place are 0 unless the run stopped at a fault; a refused run has zeros. */
struct shelf_run_result {
    uint64_t refusal;
    size_t count;
    uint64_t stop;
    uint64_t fault;
    size_t place;
};

/* A refused run changes nothing that is lent. Any other first unsets the base of every bay. */
struct shelf_run_result shelf_run(
    struct port port, struct run_trace trace, uint64_t budget, struct run_buffer lent);

#endif
