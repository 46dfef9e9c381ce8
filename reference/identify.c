#include "identify.h"

#include "refusals.h"

/* Frame byte 0 is highest, and its low four bits are the address frame's type. */
#define FRAME_TYPE_MASK UINT64_C(0x0F000000)

struct identify identify_fresh(void)
{
    return (struct identify){.receiver = RECEIVER_IDLE, .outcome = IDENTIFY_NONE};
}

static bool receiver_is_known(const struct identify *state)
{
    return state->receiver <= RECEIVER_COMPLETED;
}

static bool count_fits(const struct identify *state)
{
    if (state->receiver != RECEIVER_RECEIVING) {
        return state->count == 0;
    }
    return state->count <= IDENTIFY_FRAME_DWORDS;
}

static bool type_fits(const struct identify *state)
{
    if (state->receiver != RECEIVER_RECEIVING || state->count == 0) {
        return state->is_identify == 0;
    }
    return state->is_identify <= 1;
}

static bool got_fits(const struct identify *state)
{
    if (state->receiver != RECEIVER_COMPLETED) {
        return state->got == 0;
    }
    return state->got <= 1;
}

static bool sent_fits(const struct identify *state)
{
    return state->sent <= 1;
}

static bool timer_fits(const struct identify *state)
{
    bool runs = state->sent == 1 && state->got == 0 && state->outcome == IDENTIFY_NONE;

    if (!runs) {
        return state->timer == 0;
    }
    return state->timer >= 1 && state->timer <= IDENTIFY_TIMER_START;
}

static bool outcome_is_known(const struct identify *state)
{
    return state->outcome <= IDENTIFY_RESET_RECEIVED && state->outcome != IDENTIFY_FAILED;
}

static bool complete_fits(const struct identify *state)
{
    return (state->outcome == IDENTIFY_COMPLETE) == (state->got == 1 && state->sent == 1);
}

static bool time_out_fits(const struct identify *state)
{
    return state->outcome != IDENTIFY_TIME_OUT || (state->sent == 1 && state->got == 0);
}

static bool reset_received_fits(const struct identify *state)
{
    if (state->outcome != IDENTIFY_RESET_RECEIVED) {
        return true;
    }
    return state->got == 0 && (state->receiver == RECEIVER_IDLE || state->receiver == RECEIVER_COMPLETED);
}

bool identify_is_valid(const struct identify *state)
{
    return receiver_is_known(state)
        && count_fits(state)
        && type_fits(state)
        && got_fits(state)
        && sent_fits(state)
        && timer_fits(state)
        && outcome_is_known(state)
        && complete_fits(state)
        && time_out_fits(state)
        && reset_received_fits(state);
}

static bool event_is_valid(uint64_t event, uint64_t argument)
{
    switch (event) {
    case IDENTIFY_DATA_DWORD:
        return argument <= UINT32_MAX;
    case IDENTIFY_EOAF:
        return argument <= 1;
    default:
        return event <= IDENTIFY_ENABLE && argument == 0;
    }
}

/* The count and the type belong to one reception, so every move drops them. */
static void move_receiver(struct identify *state, uint64_t receiver)
{
    state->receiver = receiver;
    state->count = 0;
    state->is_identify = 0;
}

static void conclude(struct identify_result *result, uint64_t outcome)
{
    result->report = outcome;
    result->state.outcome = outcome;
    result->state.timer = 0;
}

static void take_soaf(struct identify_result *result)
{
    struct identify *state = &result->state;

    if (state->receiver == RECEIVER_COMPLETED) {
        return;
    }
    if (state->receiver == RECEIVER_RECEIVING) {
        result->report = IDENTIFY_FAILED;
    }
    move_receiver(state, RECEIVER_RECEIVING);
}

static void take_data_dword(struct identify_result *result, uint64_t dword)
{
    struct identify *state = &result->state;

    if (state->receiver != RECEIVER_RECEIVING) {
        return;
    }
    if (state->count == IDENTIFY_FRAME_DWORDS) {
        result->report = IDENTIFY_FAILED;
        move_receiver(state, RECEIVER_SPOILED);
        return;
    }
    if (state->count == 0) {
        state->is_identify = (dword & FRAME_TYPE_MASK) == 0 ? 1 : 0;
    }
    state->count++;
}

static void end_reception(struct identify_result *result, bool crc_good)
{
    struct identify *state = &result->state;
    bool whole = state->count == IDENTIFY_FRAME_DWORDS && state->is_identify == 1 && crc_good;

    move_receiver(state, RECEIVER_COMPLETED);
    if (!whole) {
        result->report = IDENTIFY_FAILED;
        return;
    }
    state->got = 1;
    if (state->sent == 1) {
        conclude(result, IDENTIFY_COMPLETE);
    }
}

static void take_eoaf(struct identify_result *result, bool crc_good)
{
    struct identify *state = &result->state;

    if (state->receiver == RECEIVER_RECEIVING) {
        end_reception(result, crc_good);
        return;
    }
    /* The ninth dword has reported this frame already. */
    if (state->receiver == RECEIVER_SPOILED) {
        move_receiver(state, RECEIVER_COMPLETED);
    }
}

static void take_hard_reset(struct identify_result *result)
{
    const struct identify *state = &result->state;

    if (state->receiver == RECEIVER_RECEIVING || state->receiver == RECEIVER_SPOILED || state->got == 1) {
        return;
    }
    conclude(result, IDENTIFY_RESET_RECEIVED);
}

static void take_frame_sent(struct identify_result *result)
{
    struct identify *state = &result->state;

    if (state->sent == 1) {
        return;
    }
    state->sent = 1;
    if (state->got == 1) {
        conclude(result, IDENTIFY_COMPLETE);
        return;
    }
    state->timer = IDENTIFY_TIMER_START;
}

static void take_tick(struct identify_result *result)
{
    struct identify *state = &result->state;

    if (state->timer == 0) {
        return;
    }
    state->timer--;
    if (state->timer == 0) {
        conclude(result, IDENTIFY_TIME_OUT);
    }
}

static void take_event(struct identify_result *result, uint64_t event, uint64_t argument)
{
    switch (event) {
    case IDENTIFY_SOAF:
        take_soaf(result);
        return;
    case IDENTIFY_DATA_DWORD:
        take_data_dword(result, argument);
        return;
    case IDENTIFY_EOAF:
        take_eoaf(result, argument == 1);
        return;
    case IDENTIFY_HARD_RESET:
        take_hard_reset(result);
        return;
    case IDENTIFY_FRAME_SENT:
        take_frame_sent(result);
        return;
    case IDENTIFY_TICK:
        take_tick(result);
        return;
    default:
        return;
    }
}

struct identify_result identify_step(struct identify state, uint64_t event, uint64_t argument)
{
    struct identify_result result = {.refusal = NOT_REFUSED, .report = IDENTIFY_NONE, .state = state};

    if (!identify_is_valid(&state)) {
        result.refusal = REFUSED_BAD_STATE;
        return result;
    }
    if (!event_is_valid(event, argument)) {
        result.refusal = REFUSED_BAD_EVENT;
        return result;
    }
    if (event == IDENTIFY_ENABLE) {
        result.state = identify_fresh();
        return result;
    }
    if (state.outcome == IDENTIFY_NONE) {
        take_event(&result, event, argument);
    }
    return result;
}
