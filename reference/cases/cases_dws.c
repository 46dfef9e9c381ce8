#include "cases.h"

#include "dws.h"

#include <assert.h>

enum {
    MOST_STEPS = 1000,
    SEEDED_WALKS = 6,
    SHORT_STEPS = 100
};

struct dws_walk {
    uint64_t start;
    size_t count;
    uint64_t events[MOST_STEPS];
};

static void walk_add(struct dws_walk *walk, uint64_t event)
{
    assert(walk->count < MOST_STEPS);
    walk->events[walk->count] = event;
    walk->count++;
}

static void walk_write(struct case_file *file, const struct dws_walk *walk)
{
    uint64_t state = walk->start;

    case_number(file, KIND_DWS_WALK);
    case_number(file, walk->start);
    case_number(file, walk->count);
    case_numbers(file, walk->events, walk->count);
    for (size_t i = 0; i < walk->count; i++) {
        struct dws_result result = dws_step(state, walk->events[i]);
        const uint64_t line[] = {result.refusal, result.state, result.report};

        expect_line(file, KIND_DWS_WALK, line, sizeof line / sizeof line[0]);
        state = result.state;
    }
}

static void single_step(struct case_file *file, uint64_t state, uint64_t event)
{
    struct dws_walk walk = {.start = state};

    walk_add(&walk, event);
    walk_write(file, &walk);
}

static void every_small_pair(struct case_file *file)
{
    for (uint64_t state = 0; state <= 11; state++) {
        for (uint64_t event = 0; event <= 5; event++) {
            single_step(file, state, event);
        }
    }
}

/* Numbers that would pass for small ones if only their low 8, 16 or 32 bits were kept. */
static void large_numbers(struct case_file *file)
{
    static const uint64_t added[] = {
        16, 256, 65536, UINT64_C(1) << 32, UINT64_C(1) << 63, UINT64_MAX - 3
    };

    for (size_t i = 0; i < sizeof added / sizeof added[0]; i++) {
        for (uint64_t small = 0; small <= 3; small++) {
            single_step(file, added[i] + small, small);
            single_step(file, small + 2, added[i] + small);
            single_step(file, added[i] + small, added[i] + small);
        }
    }
}

/* One dword in `noise` is invalid; now and then comes a restart or an unknown event. */
static uint64_t noisy_event(struct case_file *file, uint64_t noise)
{
    if (case_random_one_in(file, 64)) {
        return DWS_RESTART;
    }
    if (case_random_one_in(file, 64)) {
        return DWS_EVENTS + case_random_below(file, 300);
    }
    if (case_random_one_in(file, noise)) {
        return DWS_INVALID_DWORD;
    }
    return case_random_one_in(file, 2) ? DWS_DATA_DWORD : DWS_PRIMITIVE;
}

static void seeded_walk(struct case_file *file, uint64_t start, size_t steps, uint64_t noise)
{
    struct dws_walk walk = {.start = start};

    for (size_t i = 0; i < steps; i++) {
        walk_add(&walk, noisy_event(file, noise));
    }
    walk_write(file, &walk);
}

void make_dws_cases(struct case_file *file)
{
    every_small_pair(file);
    large_numbers(file);
    for (uint64_t start = 0; start < DWS_STATES; start++) {
        seeded_walk(file, start, SHORT_STEPS, 2);
        seeded_walk(file, start, SHORT_STEPS, 4);
    }
    for (uint64_t noise = 2; noise < 2 + SEEDED_WALKS; noise++) {
        seeded_walk(file, DWS_ACQUIRE_SYNC, MOST_STEPS, noise);
    }
}
