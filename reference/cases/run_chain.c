#include "run_chain.h"

#include "bay_fields.h"
#include "run.h"

#include <string.h>

/* No refusal and no answer, so that what was written and what was not both show. */
enum { FILL = 0xEE };

struct chain start_chain(struct case_file *file, struct phy start, uint64_t runs)
{
    uint64_t fields[PHY_FIELDS];

    phy_to_fields(&start, fields);
    case_number(file, KIND_RUNS);
    case_numbers(file, fields, PHY_FIELDS);
    case_number(file, runs);
    return (struct chain){.file = file, .now = start};
}

static void expect_result(struct case_file *file, const struct run_result *result)
{
    uint64_t line[5 + BAY_FIELDS] = {
        result->refusal, result->count, result->stop, result->fault, result->place
    };

    bay_to_fields(&result->bay, line + 5);
    expect_line(file, KIND_RUNS, line, sizeof line / sizeof line[0]);
}

void chain_run(struct chain *chain, uint64_t budget, size_t room, const struct pieces *trace)
{
    uint8_t bytes[LENT_ROOM];
    const struct run_trace whole = {.bytes = trace->whole, .length = trace->length};
    const struct run_buffer lent = {.bytes = bytes, .length = room};

    case_number(chain->file, budget);
    case_number(chain->file, room);
    case_number(chain->file, FILL);
    case_pieces(chain->file, trace);
    memset(bytes, FILL, room);

    struct run_result result = run(chain->now, whole, budget, lent);

    expect_result(chain->file, &result);
    expect_repeats(chain->file, KIND_RUNS, bytes, room);
    chain->now = result.bay.phy;
}

static void seeded_chain(struct case_file *file, run_maker *make, uint64_t most_runs, struct phy start)
{
    uint64_t runs = 1 + case_random_below(file, most_runs);
    struct chain chain = start_chain(file, start, runs);

    for (uint64_t i = 0; i < runs; i++) {
        make(file, &chain);
    }
}

void seeded_chains(struct case_file *file, run_maker *make, uint64_t most_runs, int from_fresh)
{
    for (uint64_t link = LINK_IDLE; link <= LINK_BREAK; link++) {
        for (uint64_t port = PORT_IDLE; port <= PORT_WAIT_FOR_CLOSE; port++) {
            struct phy phy = sample_record(link, port, (link + port) % variant_count(link, port));

            if (phy_is_valid(&phy)) {
                seeded_chain(file, make, most_runs, phy);
            }
        }
    }
    for (int i = 0; i < from_fresh; i++) {
        seeded_chain(file, make, most_runs, phy_fresh());
    }
}

void single_run(
    struct case_file *file, struct phy start, uint64_t budget, size_t room, const struct pieces *trace)
{
    struct chain chain = start_chain(file, start, 1);

    chain_run(&chain, budget, room, trace);
}
