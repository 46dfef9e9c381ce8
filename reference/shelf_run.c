#include "shelf_run.h"

#include "refusals.h"
#include "shelf.h"

static uint64_t run_refusal(const struct port *port, uint64_t budget, size_t room)
{
    if (!port_is_valid(port)) {
        return REFUSED_BAD_STATE;
    }
    return room < budget ? REFUSED_NO_ROOM : NOT_REFUSED;
}

static void unset_bases(const struct port *port)
{
    for (size_t i = 0; i < port->count; i++) {
        port->bays[i].base = 0;
        port->bays[i].base_set = 0;
    }
}

static void stop_at_fault(struct shelf_run_result *result, uint64_t fault, size_t place)
{
    result->stop = STOPPED_AT_FAULT;
    result->fault = fault;
    result->place = place;
}

/* The answer is the event's own; a hand-out gives none. */
static uint8_t byte_for(const struct port_result *step)
{
    return (uint8_t)(step->refusal != NOT_REFUSED ? step->refusal : step->answer.code);
}

static void take_event(
    struct shelf_run_result *result, struct port port, struct shelf_event event, struct run_buffer lent)
{
    struct port_result step = port_step(port, event);

    lent.bytes[result->count] = byte_for(&step);
    result->count++;
}

struct shelf_run_result shelf_run(
    struct port port, struct run_trace trace, uint64_t budget, struct run_buffer lent)
{
    struct shelf_run_result result = {.refusal = run_refusal(&port, budget, lent.length)};
    size_t place = 0;

    if (result.refusal != NOT_REFUSED) {
        return result;
    }
    unset_bases(&port);
    while (place < trace.length) {
        if (result.count == budget) {
            result.stop = STOPPED_AT_BUDGET;
            return result;
        }

        struct shelf_read got = shelf_read(trace.bytes, trace.length, place);

        if (got.found == FOUND_FAULT) {
            stop_at_fault(&result, got.refusal, place);
            return result;
        }
        take_event(&result, port, got.event, lent);
        place = got.next;
    }
    result.stop = STOPPED_AT_END;
    return result;
}
