#include "cases.h"

#include "identify_samples.h"

#include <assert.h>

enum {
    MOST_STEPS = 1300,
    MOST_STATES = 200,
    SEEDED_WALKS = 60,
    SEEDED_STEPS = 100
};

/* The order in which cases and lines carry a record. */
enum identify_field {
    FIELD_RECEIVER,
    FIELD_COUNT,
    FIELD_TYPED,
    FIELD_GOT,
    FIELD_SENT,
    FIELD_TIMER,
    FIELD_OUTCOME,
    FIELDS
};

struct identify_walk {
    struct identify start;
    size_t count;
    struct identify_event_case steps[MOST_STEPS];
};

/* ---- Walks ---- */

static void to_fields(const struct identify *state, uint64_t fields[FIELDS])
{
    fields[FIELD_RECEIVER] = state->receiver;
    fields[FIELD_COUNT] = state->count;
    fields[FIELD_TYPED] = state->is_identify;
    fields[FIELD_GOT] = state->got;
    fields[FIELD_SENT] = state->sent;
    fields[FIELD_TIMER] = state->timer;
    fields[FIELD_OUTCOME] = state->outcome;
}

static struct identify from_fields(const uint64_t fields[FIELDS])
{
    return (struct identify){
        .receiver = fields[FIELD_RECEIVER],
        .count = fields[FIELD_COUNT],
        .is_identify = fields[FIELD_TYPED],
        .got = fields[FIELD_GOT],
        .sent = fields[FIELD_SENT],
        .timer = fields[FIELD_TIMER],
        .outcome = fields[FIELD_OUTCOME]
    };
}

static void walk_start(struct identify_walk *walk, struct identify start)
{
    walk->start = start;
    walk->count = 0;
}

static void walk_add(struct identify_walk *walk, uint64_t event, uint64_t argument)
{
    assert(walk->count < MOST_STEPS);
    walk->steps[walk->count] = (struct identify_event_case){.event = event, .argument = argument};
    walk->count++;
}

static void expect_result(struct case_file *file, const struct identify_result *result)
{
    uint64_t line[2 + FIELDS] = {result->refusal, result->report};

    to_fields(&result->state, line + 2);
    expect_line(file, KIND_IDENTIFY_WALK, line, 2 + FIELDS);
}

static void walk_write(struct case_file *file, const struct identify_walk *walk)
{
    uint64_t fields[FIELDS];
    struct identify state = walk->start;

    to_fields(&state, fields);
    case_number(file, KIND_IDENTIFY_WALK);
    case_numbers(file, fields, FIELDS);
    case_number(file, walk->count);
    for (size_t i = 0; i < walk->count; i++) {
        struct identify_event_case step = walk->steps[i];
        struct identify_result result = identify_step(state, step.event, step.argument);

        case_number(file, step.event);
        case_number(file, step.argument);
        expect_result(file, &result);
        state = result.state;
    }
}

static void single_step(struct case_file *file, struct identify state, uint64_t event, uint64_t argument)
{
    struct identify_walk walk;

    walk_start(&walk, state);
    walk_add(&walk, event, argument);
    walk_write(file, &walk);
}

/* ---- Every valid state with every event ---- */

static size_t add_if_valid(struct identify states[MOST_STATES], size_t count, struct identify state)
{
    if (!identify_is_valid(&state)) {
        return count;
    }
    assert(count < MOST_STATES);
    states[count] = state;
    return count + 1;
}

/* All outcomes and timer's ends for one receiver, count and three flags. */
static size_t add_valid_ends(struct identify states[MOST_STATES], size_t count, struct identify state)
{
    static const uint64_t timers[] = {0, 1, 2, 999, 1000};

    for (uint64_t outcome = 0; outcome <= IDENTIFY_RESET_RECEIVED; outcome++) {
        for (size_t i = 0; i < sizeof timers / sizeof timers[0]; i++) {
            state.outcome = outcome;
            state.timer = timers[i];
            count = add_if_valid(states, count, state);
        }
    }
    return count;
}

static void set_flags(struct identify *state, uint64_t flags)
{
    state->is_identify = flags % 2;
    state->got = flags / 2 % 2;
    state->sent = flags / 4;
}

static size_t list_valid_states(struct identify states[MOST_STATES])
{
    size_t count = 0;

    for (uint64_t receiver = 0; receiver <= RECEIVER_COMPLETED; receiver++) {
        for (uint64_t dwords = 0; dwords <= IDENTIFY_FRAME_DWORDS; dwords++) {
            for (uint64_t flags = 0; flags < 8; flags++) {
                struct identify state = {.receiver = receiver, .count = dwords};

                set_flags(&state, flags);
                count = add_valid_ends(states, count, state);
            }
        }
    }
    return count;
}

static void probe_valid_states(struct case_file *file, const struct identify *states, size_t count)
{
    for (size_t i = 0; i < count; i++) {
        for (size_t k = 0; k < identify_probe_count; k++) {
            single_step(file, states[i], identify_probes[k].event, identify_probes[k].argument);
        }
    }
}

/* ---- Invalid records ---- */

/* Enable is taken in every valid state, so its refusal is the record's fault alone. */
static void judge_timers_and_outcomes(struct case_file *file, struct identify state)
{
    static const uint64_t timers[] = {0, 1, 1000, 1001};

    for (size_t i = 0; i < sizeof timers / sizeof timers[0]; i++) {
        for (uint64_t outcome = 0; outcome <= IDENTIFY_RESET_RECEIVED + 1; outcome++) {
            state.timer = timers[i];
            state.outcome = outcome;
            single_step(file, state, IDENTIFY_ENABLE, 0);
        }
    }
}

static void judge_records(struct case_file *file)
{
    static const uint64_t counts[] = {0, 1, 8, 9};

    for (uint64_t receiver = 0; receiver <= RECEIVER_COMPLETED + 1; receiver++) {
        for (size_t i = 0; i < sizeof counts / sizeof counts[0]; i++) {
            for (uint64_t flags = 0; flags < 8; flags++) {
                struct identify state = {.receiver = receiver, .count = counts[i]};

                set_flags(&state, flags);
                judge_timers_and_outcomes(file, state);
            }
        }
    }
}

/* One field raised so that its low bits alone would still pass; the bad event comes second to the state. */
static void judge_raised_field(struct case_file *file, struct identify state, size_t field, uint64_t raise)
{
    uint64_t fields[FIELDS];
    struct identify_walk walk;

    to_fields(&state, fields);
    fields[field] += raise;
    walk_start(&walk, from_fields(fields));
    walk_add(&walk, 8, 0);
    walk_add(&walk, IDENTIFY_DATA_DWORD, DWORD_PAST);
    walk_add(&walk, IDENTIFY_ENABLE, 0);
    walk_write(file, &walk);
}

static void judge_raised_fields(struct case_file *file, const struct identify *states, size_t count)
{
    static const uint64_t raises[] = {256, DWORD_PAST, UINT64_MAX - 1000};

    for (size_t i = 0; i < count; i += 3) {
        for (size_t field = FIELD_RECEIVER; field < FIELDS; field++) {
            judge_raised_field(file, states[i], field, raises[(i / 3 + field) % 3]);
        }
    }
}

/* No event is taken, not even one that would set the flag anew; the unknown one comes second to the state. */
static void refuse_flag(struct case_file *file, const struct identify *state, size_t flag, uint64_t value)
{
    uint64_t fields[FIELDS];
    struct identify_walk walk;

    to_fields(state, fields);
    fields[flag] = value;
    walk_start(&walk, from_fields(fields));
    for (uint64_t event = IDENTIFY_SOAF; event <= IDENTIFY_ENABLE + 1; event++) {
        walk_add(&walk, event, event == IDENTIFY_EOAF ? 1 : 0);
    }
    walk_write(file, &walk);
}

/* Counts and timers between their ends make no other case of a flag. */
static bool is_at_ends(const struct identify *state)
{
    bool count_at_end = state->count <= 1 || state->count == IDENTIFY_FRAME_DWORDS;
    bool timer_at_end = state->timer == 0 || state->timer == IDENTIFY_TIMER_START;

    return count_at_end && timer_at_end;
}

/* Numbers that are no flags, in every flag of every kind of state. */
static void refuse_flags(struct case_file *file, const struct identify *states, size_t count)
{
    for (size_t i = 0; i < count; i++) {
        if (!is_at_ends(&states[i])) {
            continue;
        }
        for (size_t flag = FIELD_TYPED; flag <= FIELD_SENT; flag++) {
            refuse_flag(file, &states[i], flag, 2);
            refuse_flag(file, &states[i], flag, UINT64_MAX);
        }
    }
}

/* ---- Whole frames ---- */

static void play_script(struct case_file *file, const struct identify_item items[IDENTIFY_SCRIPT_ITEMS])
{
    struct identify_walk walk;

    walk_start(&walk, identify_fresh());
    for (size_t i = 0; i < IDENTIFY_SCRIPT_ITEMS && items[i].repeat != 0; i++) {
        for (unsigned k = 0; k < items[i].repeat; k++) {
            walk_add(&walk, items[i].event, items[i].argument);
        }
    }
    walk_write(file, &walk);
}

static void add_frame(struct identify_walk *walk, uint64_t dwords, uint64_t dword, uint64_t crc)
{
    walk_add(walk, IDENTIFY_SOAF, 0);
    for (uint64_t i = 0; i < dwords; i++) {
        walk_add(walk, IDENTIFY_DATA_DWORD, dword);
    }
    walk_add(walk, IDENTIFY_EOAF, crc);
}

static void frames_of_every_length(struct case_file *file)
{
    for (uint64_t dwords = 0; dwords <= IDENTIFY_FRAME_DWORDS + 2; dwords++) {
        for (uint64_t crc = 0; crc <= 1; crc++) {
            struct identify_walk walk;

            walk_start(&walk, identify_fresh());
            add_frame(&walk, dwords, TYPE_IDENTIFY, crc);
            walk_add(&walk, IDENTIFY_ENABLE, 0);
            add_frame(&walk, dwords, TYPE_OTHER, crc);
            walk_write(file, &walk);
        }
    }
}

/* ---- Seeded walks ---- */

static uint64_t random_dword(struct case_file *file)
{
    uint64_t dword = case_random(file) & DWORD_MOST;

    return case_random_one_in(file, 6) ? dword : dword & TYPE_IDENTIFY;
}

static void add_random_frame(struct case_file *file, struct identify_walk *walk)
{
    uint64_t dwords = case_random_one_in(file, 3) ? case_random_below(file, 11) : IDENTIFY_FRAME_DWORDS;

    walk_add(walk, IDENTIFY_SOAF, 0);
    for (uint64_t i = 0; i < dwords; i++) {
        walk_add(walk, IDENTIFY_DATA_DWORD, random_dword(file));
        if (case_random_one_in(file, 12)) {
            walk_add(walk, 3 + case_random_below(file, 4), 0);
        }
    }
    if (!case_random_one_in(file, 8)) {
        walk_add(walk, IDENTIFY_EOAF, case_random_one_in(file, 5) ? 0 : 1);
    }
}

static void add_random_ticks(struct case_file *file, struct identify_walk *walk)
{
    uint64_t ticks = 1 + case_random_below(file, 4);

    for (uint64_t i = 0; i < ticks; i++) {
        walk_add(walk, IDENTIFY_TICK, 0);
    }
}

static void add_random_event(struct case_file *file, struct identify_walk *walk)
{
    uint64_t event = case_random_below(file, 10);
    uint64_t argument = case_random_below(file, 3);

    walk_add(walk, event, argument);
}

static void add_random_phrase(struct case_file *file, struct identify_walk *walk)
{
    switch (case_random_below(file, 12)) {
    case 0:
    case 1:
    case 2:
        add_random_frame(file, walk);
        return;
    case 3:
    case 4:
        walk_add(walk, IDENTIFY_FRAME_SENT, 0);
        return;
    case 5:
    case 6:
        add_random_ticks(file, walk);
        return;
    case 7:
        walk_add(walk, IDENTIFY_HARD_RESET, 0);
        return;
    case 8:
    case 9:
        walk_add(walk, IDENTIFY_ENABLE, 0);
        return;
    case 10:
        walk_add(walk, IDENTIFY_DATA_DWORD, random_dword(file));
        return;
    default:
        add_random_event(file, walk);
        return;
    }
}

static void seeded_walk(struct case_file *file, struct identify start)
{
    struct identify_walk walk;

    walk_start(&walk, start);
    while (walk.count < SEEDED_STEPS) {
        add_random_phrase(file, &walk);
    }
    walk_write(file, &walk);
}

void make_identify_cases(struct case_file *file)
{
    struct identify states[MOST_STATES];
    size_t count = list_valid_states(states);

    probe_valid_states(file, states, count);
    judge_records(file);
    judge_raised_fields(file, states, count);
    refuse_flags(file, states, count);
    for (size_t i = 0; i < identify_script_count; i++) {
        play_script(file, identify_scripts[i]);
    }
    frames_of_every_length(file);
    for (int i = 0; i < SEEDED_WALKS; i++) {
        seeded_walk(file, states[case_random_below(file, count)]);
    }
}
