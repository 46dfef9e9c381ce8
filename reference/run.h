#ifndef RUN_H
#define RUN_H

#include "bay.h"

enum run_stop {
    STOPPED_AT_END = 0,
    STOPPED_AT_BUDGET = 1,
    STOPPED_AT_FAULT = 2
};

/* Fault and place are 0 unless the run stopped at a fault; a refused run has zeros but for the phy. The base is that
 * of the run's last stamp. */
struct run_result {
    uint64_t refusal;
    size_t count;
    uint64_t stop;
    uint64_t fault;
    size_t place;
    struct bay bay;
};

/* The bytes a run reads, and those it is lent to write to. */
struct run_trace {
    const uint8_t *bytes;
    size_t length;
};

struct run_buffer {
    uint8_t *bytes;
    size_t length;
};

struct run_result run(struct phy phy, struct run_trace trace, uint64_t budget, struct run_buffer lent);

#endif
