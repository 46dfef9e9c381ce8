#include "cases.h"

#include "run_chain.h"

/* The lines end with the last byte of a buffer of FULL bytes, in which a program may gather them. */
enum {
    FULL = 65536,
    PAIRS = 8185,
    UNTOUCHED = 2
};

bool make_full_output_case(struct case_file *file)
{
    /* Nothing comes of the one and a refusal of the other, so no two bytes of the run are equal. */
    static const uint8_t pair[] = {EVENT_TICK, EVENT_CANCEL_OPEN};
    /* The last refusal would be a few bytes too many. */
    const size_t budget = PAIRS * sizeof pair - 1;
    struct pieces trace;

    pieces_clear(&trace);
    pieces_add(&trace, PAIRS, pair, sizeof pair);
    single_run(file, phy_fresh(), budget, budget + UNTOUCHED, &trace);
    return ftell(file->expected) == FULL;
}
