#ifndef SHELF_CHAIN_H
#define SHELF_CHAIN_H

#include "case_trace.h"
#include "port_box.h"

enum { SHELF_LENT_ROOM = 8192 };

/* Runs one after the other, each from the row and the queue that the one before left. */
struct shelf_chain {
    struct case_file *file;
    struct port_box now;
};

struct shelf_chain start_shelf_chain(struct case_file *file, const struct port_box *start, uint64_t runs);

/* The room is that of the buffer lent, at most SHELF_LENT_ROOM. */
void shelf_chain_run(struct shelf_chain *chain, uint64_t budget, size_t room, const struct pieces *trace);
void shelf_chain_string(
    struct shelf_chain *chain, uint64_t budget, size_t room, const struct byte_string *string);

void single_shelf_run(
    struct case_file *file, const struct port_box *start, uint64_t budget, size_t room,
    const struct byte_string *string);

#endif
