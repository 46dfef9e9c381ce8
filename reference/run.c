#include "run.h"

#include "refusals.h"
#include "trace.h"

static uint64_t run_refusal(const struct phy *phy, uint64_t budget, size_t room)
{
    if (!phy_is_valid(phy)) {
        return REFUSED_BAD_STATE;
    }
    return room < budget ? REFUSED_NO_ROOM : NOT_REFUSED;
}

static uint8_t byte_for(uint64_t refusal, uint64_t answer)
{
    return (uint8_t)(refusal != NOT_REFUSED ? refusal : answer);
}

static void stop_at_fault(struct run_result *result, uint64_t fault, size_t place)
{
    result->stop = STOPPED_AT_FAULT;
    result->fault = fault;
    result->place = place;
}

static void write_byte(struct run_result *result, struct run_buffer lent, uint8_t byte)
{
    lent.bytes[result->count] = byte;
    result->count++;
}

static void take_stamp(struct run_result *result, struct phy_event stamp, struct run_buffer lent)
{
    struct bay_result step = bay_step(result->bay, stamp);

    write_byte(result, lent, byte_for(step.refusal, step.answer.code));
    result->bay = step.bay;
}

/* Only a stamp needs the bay; for the others the phy's own step is shorter, and runs are long. */
static void take_event(struct run_result *result, struct phy_event event, struct run_buffer lent)
{
    if (event.code == EVENT_TIME_STAMP) {
        take_stamp(result, event, lent);
        return;
    }

    struct phy_result step = phy_step(result->bay.phy, event);

    write_byte(result, lent, byte_for(step.refusal, step.answer));
    result->bay.phy = step.phy;
}

struct run_result run(struct phy phy, struct run_trace trace, uint64_t budget, struct run_buffer lent)
{
    struct run_result result = {.refusal = run_refusal(&phy, budget, lent.length), .bay = {.phy = phy}};
    size_t place = 0;

    if (result.refusal != NOT_REFUSED) {
        return result;
    }
    while (place < trace.length) {
        if (result.count == budget) {
            result.stop = STOPPED_AT_BUDGET;
            return result;
        }

        struct event_read got = event_read(trace.bytes, trace.length, place);

        if (got.found == FOUND_FAULT) {
            stop_at_fault(&result, got.refusal, place);
            return result;
        }
        take_event(&result, got.event, lent);
        place = got.next;
    }
    result.stop = STOPPED_AT_END;
    return result;
}
