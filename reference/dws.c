#include "dws.h"

#include "refusals.h"

static const uint8_t next_state[DWS_EVENTS][DWS_STATES] = {
    /* from state           0  1  2  3  4  5  6  7  8  9 */
    [DWS_INVALID_DWORD] = { 0, 0, 0, 4, 6, 6, 8, 8, 0, 0 },
    [DWS_DATA_DWORD]    = { 0, 1, 2, 3, 5, 3, 7, 4, 9, 6 },
    [DWS_PRIMITIVE]     = { 1, 2, 3, 3, 5, 3, 7, 4, 9, 6 },
    [DWS_RESTART]       = { 0, 0, 0, 0, 0, 0, 0, 0, 0, 0 }
};

static uint64_t report_of(uint64_t from, uint64_t event, uint64_t to)
{
    if (from == DWS_VALID_2 && to == DWS_SYNC_ACQUIRED) {
        return DWS_ACQUIRED;
    }
    /* A restart also enters 0, but tells nobody anything new. */
    if (from >= DWS_LOST_3 && event == DWS_INVALID_DWORD) {
        return DWS_LOST;
    }
    return DWS_NO_REPORT;
}

static struct dws_result dws_refused(uint64_t refusal, uint64_t state)
{
    return (struct dws_result){.refusal = refusal, .state = state, .report = DWS_NO_REPORT};
}

struct dws_result dws_step(uint64_t state, uint64_t event)
{
    if (state >= DWS_STATES) {
        return dws_refused(REFUSED_BAD_STATE, state);
    }
    if (event >= DWS_EVENTS) {
        return dws_refused(REFUSED_BAD_EVENT, state);
    }

    uint64_t to = next_state[event][state];

    return (struct dws_result){.refusal = NOT_REFUSED, .state = to, .report = report_of(state, event, to)};
}
