/*
 * Walks of the phy, of a bay and of the two machines beside them, step by step.
 */
#include <string.h>

#include "differ.h"
#include "dws.h"
#include "identify.h"
#include "inputs.h"
#include "refusals.h"

enum { IDENTIFY_FIELDS = sizeof(struct louravela_identification) / sizeof(uint64_t), WALK_STEPS = 256 };

/* ---- The phy ---- */

static struct louravela_phy step_both(struct louravela_phy phy, struct louravela_event event)
{
    struct louravela_stepped ours = louravela_phy_step(phy, event);
    struct phy_result theirs = phy_step(their_phy(&phy), their_event(&event));

    compared_steps++;
    same("a step's refusal", ours.refusal, theirs.refusal);
    same("an answer", ours.answer, theirs.answer);
    same("a notice", ours.notice, theirs.notice);
    same("a primitive sent", ours.sent, theirs.sent);
    same_open(&ours.answered, &theirs.answered);
    same_phy(&ours.next, &theirs.phy);
    return ours.next;
}

/* A walk, with ticks in long rows so that timers run out, and damaged records beside it. */
struct louravela_phy walk_phy(void)
{
    struct louravela_phy phy = louravela_phy_fresh();
    struct phy fresh = phy_fresh();

    same_phy(&phy, &fresh);
    for (int i = 0; i < WALK_STEPS; i++) {
        struct louravela_event event = random_event();

        phy = step_both(phy, event);
        if (one_in(4)) {
            compared_records++;
            step_both(damaged_phy(phy), event);
        }
        if (one_in(32)) {
            struct louravela_event tick = {LOURAVELA_TICK, 0, 0, 0, 0, 0, 0};

            for (uint64_t ticks = 990 + random_below(20); ticks > 0; ticks--) {
                phy = step_both(phy, tick);
            }
        }
    }
    return phy;
}

/* ---- A bay ---- */

static void same_report(const char *what, struct louravela_report ours, struct bay_report theirs)
{
    same(what, ours.code, theirs.code);
    same("the tick of a report", ours.tick, theirs.tick);
}

static struct louravela_bay bay_both(struct louravela_bay bay, struct louravela_event event)
{
    struct louravela_bay_stepped ours = louravela_bay_step(bay, event);
    struct bay before = {their_phy(&bay.phy), bay.base, bay.base_set};
    struct bay_result theirs = bay_step(before, their_event(&event));

    compared_steps++;
    same("a bay's refusal", ours.refusal, theirs.refusal);
    same_report("a bay's answer", ours.answer, theirs.answer);
    same_report("a bay's notice", ours.notice, theirs.notice);
    same_report("a bay's second notice", ours.second_notice, theirs.second_notice);
    same_report("what a bay sends", ours.sent, theirs.sent);
    same_open(&ours.answered, &theirs.answered);
    same_bay(&ours.next, &theirs.bay);
    return ours.next;
}

struct louravela_event next_stamp(const struct louravela_bay *bay)
{
    static const uint64_t gaps[] = {0, 1, 2, 998, 999, 1000, 1001, 1998, 1999, 2000, 2001, UINT32_MAX};
    struct louravela_event event = {LOURAVELA_TIME_STAMP, 0, 0, 0, 0, 0, 0};
    uint64_t gap = one_in(4) ? random_any() : gaps[random_below(sizeof gaps / sizeof gaps[0])];

    event.first = (uint32_t)(bay->base + gap);
    return event;
}

struct louravela_bay damaged_bay(struct louravela_bay bay)
{
    if (one_in(2)) {
        bay.phy = damaged_phy(bay.phy);
        return bay;
    }
    *(one_in(2) ? &bay.base : &bay.base_set) = random_any();
    return bay;
}

/* Stamps between events as they come, and damaged records beside the walk. */
void walk_bay(void)
{
    struct louravela_bay bay = louravela_bay_fresh();
    struct bay fresh = bay_fresh();

    same_bay(&bay, &fresh);
    for (int i = 0; i < WALK_STEPS; i++) {
        struct louravela_event event = one_in(3) ? next_stamp(&bay) : random_event();

        bay = bay_both(bay, event);
        if (one_in(4)) {
            compared_records++;
            bay_both(damaged_bay(bay), one_in(2) ? next_stamp(&bay) : event);
        }
    }
}

/* ---- The two machines beside the phy ---- */

void walk_dws(void)
{
    uint64_t state = louravela_dws_fresh();

    for (int i = 0; i < WALK_STEPS; i++) {
        uint64_t event = one_in(16) ? random_any() : random_below(DWS_EVENTS);
        uint64_t from = one_in(16) ? random_any() : state;
        struct louravela_dws_stepped ours = louravela_dws_step(from, event);
        struct dws_result theirs = dws_step(from, event);

        compared_steps++;
        same("a dws step's refusal", ours.refusal, theirs.refusal);
        same("a dws state", ours.state, theirs.state);
        same("a dws report", ours.report, theirs.report);
        state = theirs.refusal == NOT_REFUSED ? theirs.state : state;
    }
}

static struct identify their_identify(const struct louravela_identification *state)
{
    struct identify result = {
        .receiver = state->receiver,
        .count = state->count,
        .is_identify = state->typed,
        .got = state->got,
        .sent = state->sent,
        .timer = state->timer,
        .outcome = state->outcome
    };

    return result;
}

static void same_identify(const struct louravela_identification *ours, const struct identify *theirs)
{
    same("a receiver", ours->receiver, theirs->receiver);
    same("a count of dwords", ours->count, theirs->count);
    same("an identification's timer", ours->timer, theirs->timer);
    same("an outcome", ours->outcome, theirs->outcome);
    same("typed", ours->typed, theirs->is_identify);
    same("got", ours->got, theirs->got);
    same("sent", ours->sent, theirs->sent);
}

static struct louravela_identification identify_both(struct louravela_identification state, uint64_t event, uint64_t argument)
{
    struct louravela_identify_stepped ours = louravela_identify_step(state, event, argument);
    struct identify_result theirs = identify_step(their_identify(&state), event, argument);

    compared_steps++;
    same("an identification's refusal", ours.refusal, theirs.refusal);
    same("an identification's report", ours.report, theirs.report);
    same_identify(&ours.next, &theirs.state);
    return ours.next;
}

/* With any numbers in some fields, or good but for a flag. */
static struct louravela_identification damaged_identify(struct louravela_identification state)
{
    uint64_t *const flags[] = {&state.typed, &state.got, &state.sent};
    uint64_t numbers[IDENTIFY_FIELDS];

    if (one_in(4)) {
        spoil_flag(flags, sizeof flags / sizeof flags[0]);
        return state;
    }
    memcpy(numbers, &state, sizeof state);
    for (uint64_t times = 1 + random_below(3); times > 0; times--) {
        numbers[random_below(IDENTIFY_FIELDS)] = one_in(2) ? random_below(4) : random_any();
    }
    memcpy(&state, numbers, sizeof state);
    return state;
}

static uint64_t identify_argument(uint64_t event)
{
    if (one_in(16)) {
        return random_any();
    }
    switch (event) {
    case LOURAVELA_IDENTIFY_DATA_DWORD:
        return one_in(2) ? random_below(UINT64_C(1) << 24) : random_below(UINT64_C(1) << 32);
    case LOURAVELA_IDENTIFY_EOAF:
        return random_below(2);
    default:
        return 0;
    }
}

/* Whole frames come about too seldom by themselves, so some dwords come eight at a time. */
void walk_identify(void)
{
    struct louravela_identification state = louravela_identify_fresh();
    struct identify fresh = identify_fresh();

    same_identify(&state, &fresh);
    for (int i = 0; i < WALK_STEPS; i++) {
        uint64_t event = one_in(16) ? random_any() : random_below(8);
        uint64_t argument = identify_argument(event);
        uint64_t times = one_in(4) ? 7 + random_below(3) : 1;

        times = event == LOURAVELA_IDENTIFY_TICK && one_in(8) ? 990 + random_below(20) : times;
        while (times-- > 0) {
            state = identify_both(state, event, argument);
        }
        if (one_in(4)) {
            compared_records++;
            identify_both(damaged_identify(state), event, argument);
        }
    }
}
