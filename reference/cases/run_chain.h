#ifndef RUN_CHAIN_H
#define RUN_CHAIN_H

#include "case_trace.h"

enum { LENT_ROOM = 65536 };

/* Runs one after the other, each from the phy that the one before gave back; its base is left behind. */
struct chain {
    struct case_file *file;
    struct phy now;
};

struct chain start_chain(struct case_file *file, struct phy start, uint64_t runs);

/* The room is that of the buffer lent, at most LENT_ROOM. */
void chain_run(struct chain *chain, uint64_t budget, size_t room, const struct pieces *trace);

/* A run of its own making at a chain's end. */
typedef void run_maker(struct case_file *file, struct chain *chain);

/* Chains of 1 to so many runs: from every pair of link and port, of which a fresh phy never reaches some, and so many
 * from a fresh phy. */
void seeded_chains(struct case_file *file, run_maker *make, uint64_t most_runs, int from_fresh);

void single_run(
    struct case_file *file, struct phy start, uint64_t budget, size_t room, const struct pieces *trace);

#endif
