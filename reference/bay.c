#include "bay.h"

#include "refusals.h"

#include <assert.h>
#include <string.h>

/* Two records are compared whole, so no byte of one may be without a meaning. */
_Static_assert(sizeof(struct phy) == 16 * sizeof(uint64_t), "a phy has padding");

struct bay bay_fresh(void)
{
    return (struct bay){.phy = phy_fresh(), .base = 0, .base_set = 0};
}

static bool clock_fits(const struct bay *bay)
{
    switch (bay->base_set) {
    case 0:
        return bay->base == 0;
    case 1:
        return bay->base <= BAY_MOST_COUNTER;
    default:
        return false;
    }
}

bool bay_is_valid(const struct bay *bay)
{
    return phy_is_valid(&bay->phy) && clock_fits(bay);
}

/* ---- Events and their arguments ---- */

bool bay_code_is_known(uint64_t code)
{
    return code >= EVENT_TX_OPEN && code <= EVENT_TIME_STAMP;
}

size_t bay_argument_count(uint64_t code)
{
    return code == EVENT_TIME_STAMP ? 1 : phy_argument_count(code);
}

bool bay_argument_fits(uint64_t code, size_t which, uint64_t value)
{
    if (code != EVENT_TIME_STAMP) {
        return phy_argument_fits(code, which, value);
    }
    return which == 0 ? value <= BAY_MOST_COUNTER : value == 0;
}

static bool stamp_is_valid(const struct phy_event *stamp)
{
    for (size_t i = 0; i < PHY_ARGUMENTS; i++) {
        if (!bay_argument_fits(EVENT_TIME_STAMP, i, stamp->argument[i])) {
            return false;
        }
    }
    return true;
}

bool bay_event_is_valid(const struct phy_event *event)
{
    return event->code == EVENT_TIME_STAMP ? stamp_is_valid(event) : phy_event_is_valid(event);
}

/* ---- The gap: its ticks one after the other ---- */

static void note(struct bay_report *report, uint64_t code, uint64_t tick)
{
    assert(report->code == 0);
    *report = (struct bay_report){.code = code, .tick = tick};
}

static void note_reports(struct bay_result *result, const struct phy_result *step, uint64_t tick)
{
    if (step->answer != NO_ANSWER) {
        note(&result->answer, step->answer, tick);
        result->answered = step->answered;
    }
    if (step->notice != NO_NOTICE) {
        note(result->notice.code == NO_NOTICE ? &result->notice : &result->second_notice, step->notice, tick);
    }
    if (step->sent != SENT_NOTHING) {
        note(&result->sent, step->sent, tick);
    }
}

/* Such a tick leaves nothing to any later one. */
static bool nothing_happened(const struct phy *before, const struct phy_result *step)
{
    return step->answer == NO_ANSWER
        && step->notice == NO_NOTICE
        && step->sent == SENT_NOTHING
        && memcmp(before, &step->phy, sizeof *before) == 0;
}

static void take_ticks(struct bay_result *result, uint32_t ticks)
{
    const struct phy_event event = {.code = EVENT_TICK};
    struct phy *phy = &result->bay.phy;

    for (uint64_t tick = 1; tick <= ticks; tick++) {
        struct phy_result step = phy_step(*phy, event);

        if (nothing_happened(phy, &step)) {
            return;
        }
        note_reports(result, &step, tick);
        *phy = step.phy;
    }
}

/* ---- The step ---- */

static struct bay_result bay_refused(uint64_t refusal, struct bay bay)
{
    return (struct bay_result){.refusal = refusal, .bay = bay};
}

/* Of 32 bits, so that the difference goes round as the counter does. */
static uint32_t ticks_between(uint64_t base, uint64_t counter)
{
    return (uint32_t)counter - (uint32_t)base;
}

static struct bay_result take_stamp(struct bay bay, const struct phy_event *stamp)
{
    struct bay_result result = {.refusal = NOT_REFUSED, .bay = bay};
    uint64_t counter = stamp->argument[0];

    if (!phy_is_valid(&bay.phy)) {
        return bay_refused(REFUSED_BAD_STATE, bay);
    }
    if (!stamp_is_valid(stamp)) {
        return bay_refused(REFUSED_BAD_EVENT, bay);
    }
    if (bay.base_set != 0) {
        take_ticks(&result, ticks_between(bay.base, counter));
    }
    result.bay.base = counter;
    result.bay.base_set = 1;
    return result;
}

static struct bay_result take_phy_event(struct bay bay, struct phy_event event)
{
    struct phy_result step = phy_step(bay.phy, event);

    return (struct bay_result){
        .refusal = step.refusal,
        .answer = {.code = step.answer},
        .notice = {.code = step.notice},
        .sent = {.code = step.sent},
        .answered = step.answered,
        .bay = {.phy = step.phy, .base = bay.base, .base_set = bay.base_set}
    };
}

struct bay_result bay_step(struct bay bay, struct phy_event event)
{
    if (!clock_fits(&bay)) {
        return bay_refused(REFUSED_BAD_STATE, bay);
    }
    return event.code == EVENT_TIME_STAMP ? take_stamp(bay, &event) : take_phy_event(bay, event);
}
