#ifndef WORKLOADS_H
#define WORKLOADS_H

#include <stddef.h>
#include <stdint.h>

enum { MOST_EVENTS = 1000000 };

typedef uint64_t worker(size_t count);

struct workload {
    const char *name;
    size_t phys; /* of its shelf, where it has one */
    void (*prepare)(size_t count);
    worker *ours;
    worker *reference;
};

extern const struct workload workloads[];
extern const size_t workload_count;

/* The workload's input, the same each time. */
void prepare(const struct workload *workload, size_t count);

#endif
