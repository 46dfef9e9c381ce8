#include "shelf_chain.h"

#include "refusals.h"
#include "shelf_run.h"

#include <assert.h>
#include <string.h>

enum {
    /* No refusal and no answer, so that what was written and what was not both show. */
    FILL = 0xEE,
    /* How many rows of equal bytes a line may tell of: it then has no more numbers than that of a queue. */
    MOST_REPEATS = QUEUE_NUMBERS / 2
};

struct shelf_chain start_shelf_chain(struct case_file *file, const struct port_box *start, uint64_t runs)
{
    case_number(file, KIND_SHELF_RUNS);
    case_box(file, start);
    case_number(file, runs);
    return (struct shelf_chain){.file = file, .now = *start};
}

static size_t count_repeats(const uint8_t *bytes, size_t length)
{
    size_t repeats = length > 0;

    for (size_t i = 1; i < length; i++) {
        repeats += bytes[i] != bytes[i - 1];
    }
    return repeats;
}

static void expect_result(struct case_file *file, const struct shelf_run_result *result)
{
    const uint64_t line[] = {result->refusal, result->count, result->stop, result->fault, result->place};

    expect_line(file, KIND_SHELF_RUNS, line, sizeof line / sizeof line[0]);
}

/* A refused run changes nothing, and no run leaves a port that could not run again. */
static struct shelf_run_result checked_run(
    struct port_box *box, struct run_trace trace, uint64_t budget, struct run_buffer lent)
{
    const struct port_box before = *box;
    struct port port = box_port(box);
    bool was_valid = port_is_valid(&port);
    struct shelf_run_result result = shelf_run(port, trace, budget, lent);

    assert(was_valid == (result.refusal != REFUSED_BAD_STATE));
    assert(port_is_valid(&port) == was_valid);
    assert(result.refusal == NOT_REFUSED || memcmp(&before, box, sizeof before) == 0);
    return result;
}

void shelf_chain_run(struct shelf_chain *chain, uint64_t budget, size_t room, const struct pieces *trace)
{
    uint8_t bytes[SHELF_LENT_ROOM];
    const struct run_trace whole = {.bytes = trace->whole, .length = trace->length};
    const struct run_buffer lent = {.bytes = bytes, .length = room};

    assert(room <= SHELF_LENT_ROOM);
    case_number(chain->file, budget);
    case_number(chain->file, room);
    case_number(chain->file, FILL);
    case_pieces(chain->file, trace);
    memset(bytes, FILL, room);

    struct shelf_run_result result = checked_run(&chain->now, whole, budget, lent);

    assert(count_repeats(bytes, room) <= MOST_REPEATS);
    expect_result(chain->file, &result);
    expect_repeats(chain->file, KIND_SHELF_RUNS, bytes, room);
    expect_box(chain->file, KIND_SHELF_RUNS, &chain->now);
}

void shelf_chain_string(
    struct shelf_chain *chain, uint64_t budget, size_t room, const struct byte_string *string)
{
    struct pieces trace;

    pieces_clear(&trace);
    pieces_add_string(&trace, 1, string);
    shelf_chain_run(chain, budget, room, &trace);
}

void single_shelf_run(
    struct case_file *file, const struct port_box *start, uint64_t budget, size_t room,
    const struct byte_string *string)
{
    struct shelf_chain chain = start_shelf_chain(file, start, 1);

    shelf_chain_string(&chain, budget, room, string);
}
