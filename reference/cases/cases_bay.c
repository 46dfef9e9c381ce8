#include "cases.h"

#include "bay_samples.h"
#include "bay_walk.h"
#include "phy_samples.h"
#include "stamp_samples.h"

enum {
    LONG_ROUNDS = 26,
    ROUND_TICKS = 999,
    SHORT_EVENTS = 30,
    LONG_EVENTS = 60,
    SEEDED_WALKS = 45
};

/* ---- Gaps ---- */

static const uint64_t gaps[] = {
    0, 1, 2, 998, 999, 1000, 1001, 1998, 1999, 2000, 2001, 65536, UINT64_C(1) << 31, BAY_MOST_COUNTER
};
enum { GAPS = sizeof gaps / sizeof gaps[0] };

static const uint64_t bases[] = {0, 1, UINT64_C(1) << 31, BAY_MOST_COUNTER};
enum { BASES = sizeof bases / sizeof bases[0] };

static void single_gap(struct case_file *file, struct phy phy, uint64_t base, uint64_t ticks)
{
    struct bay_walk walk;

    bay_walk_start(&walk, bay_with_base(phy, base));
    bay_walk_add(&walk, stamp_behind(base, ticks));
    bay_walk_write(file, &walk);
}

/* Each gap from two of the bases, and in turn from all of them. */
static void all_gaps(struct case_file *file, struct phy phy, size_t turn)
{
    for (size_t i = 0; i < GAPS; i++) {
        single_gap(file, phy, bases[(turn + i) % BASES], gaps[i]);
        single_gap(file, phy, bases[(turn + i + 2) % BASES], gaps[i]);
    }
}

static void sweep_gaps(struct case_file *file)
{
    for (size_t i = 0; i < VALID_PAIRS; i++) {
        struct record_list list = gap_records(valid_pairs[i]);

        for (size_t k = 0; k < list.count; k++) {
            all_gaps(file, list.records[k], k + k / BASES);
        }
    }
}

/* ---- The same gap, as one stamp and in parts ---- */

struct gap_parts {
    struct case_file *file;
    struct phy phy;
    uint64_t base;
    uint64_t ticks;
};

static void in_two_stamps(const struct gap_parts *gap, uint64_t first)
{
    struct bay_walk walk;

    bay_walk_start(&walk, bay_with_base(gap->phy, gap->base));
    bay_walk_add(&walk, stamp_behind(gap->base, first));
    bay_walk_add(&walk, stamp_behind(gap->base, gap->ticks));
    bay_walk_write(gap->file, &walk);
}

static void in_a_stamp_and_ticks(const struct gap_parts *gap)
{
    struct bay_walk walk;

    bay_walk_start(&walk, bay_with_base(gap->phy, gap->base));
    bay_walk_add(&walk, stamp_behind(gap->base, gap->ticks - 2));
    bay_walk_add(&walk, plain_event(EVENT_TICK));
    bay_walk_add(&walk, plain_event(EVENT_TICK));
    bay_walk_write(gap->file, &walk);
}

/* Ticks do not move the base, so the stamp behind them is two short of the gap. */
static void in_ticks_and_a_stamp(const struct gap_parts *gap)
{
    struct bay_walk walk;

    bay_walk_start(&walk, bay_with_base(gap->phy, gap->base));
    bay_walk_add(&walk, plain_event(EVENT_TICK));
    bay_walk_add(&walk, plain_event(EVENT_TICK));
    bay_walk_add(&walk, stamp_behind(gap->base, gap->ticks - 2));
    bay_walk_write(gap->file, &walk);
}

static void part_gap(struct case_file *file, struct phy phy, uint64_t base, uint64_t ticks)
{
    const struct gap_parts gap = {.file = file, .phy = phy, .base = base, .ticks = ticks};

    single_gap(file, phy, base, ticks);
    in_two_stamps(&gap, ticks - 1);
    in_two_stamps(&gap, ticks / 2);
    in_a_stamp_and_ticks(&gap);
    in_ticks_and_a_stamp(&gap);
}

/* Of the timers the shortest but one and the longest, of the waits the one that comes to the second slope. */
static bool is_worth_parting(const struct phy *phy)
{
    bool timer_counts = phy->timer == 0 || phy->timer == 2 || phy->timer == PHY_TIMER_START;
    bool wait_counts = phy->port != PORT_REQ_WAIT || phy->request.wait == PHY_SLOW_WAIT - 1;

    return timer_counts && wait_counts;
}

static void part_record(struct case_file *file, struct phy phy, size_t turn)
{
    static const uint64_t parted[] = {3, 1001, 2000};

    for (size_t i = 0; i < sizeof parted / sizeof parted[0]; i++) {
        part_gap(file, phy, bases[(turn + i) % BASES], parted[i]);
    }
}

static void part_gaps(struct case_file *file)
{
    for (size_t i = 0; i < VALID_PAIRS; i++) {
        struct record_list list = gap_records(valid_pairs[i]);

        for (size_t k = 0; k < list.count; k++) {
            if (is_worth_parting(&list.records[k])) {
                part_record(file, list.records[k], i + k);
            }
        }
    }
}

/* ---- Bases ---- */

/* It has no tick, nor has the same counter behind it; the next one has. */
static void first_stamps(struct case_file *file, struct phy phy)
{
    for (size_t i = 0; i < counter_count; i++) {
        struct bay_walk walk;

        bay_walk_start(&walk, bay_without_base(phy));
        bay_walk_add(&walk, stamp_at(counters[i]));
        bay_walk_add(&walk, stamp_at(counters[i]));
        bay_walk_add(&walk, stamp_behind(counters[i], 1));
        bay_walk_write(file, &walk);
    }
}

/* Between stamps, where they move the phy and not the base; the last stamp is one step back. */
static void ticks_between(struct case_file *file, struct phy phy, uint64_t base)
{
    static const uint64_t behind[] = {0, 0, 1, 999, 1000, 2000, 1999};
    struct bay_walk walk;

    bay_walk_start(&walk, bay_without_base(phy));
    for (size_t i = 0; i < sizeof behind / sizeof behind[0]; i++) {
        bay_walk_add(&walk, plain_event(EVENT_TICK));
        bay_walk_add(&walk, stamp_behind(base, behind[i]));
    }
    bay_walk_write(file, &walk);
}

/* Its reports have no tick, and the base outlives even a reset. */
static void event_before_stamps(struct case_file *file, struct bay bay, struct phy_event event)
{
    struct bay_walk walk;

    bay_walk_start(&walk, bay);
    bay_walk_add(&walk, event);
    bay_walk_add(&walk, stamp_behind(bay.base, 1));
    bay_walk_add(&walk, stamp_behind(bay.base, 2 * PHY_TIMER_START + 1));
    bay_walk_write(file, &walk);
}

static void events_before_stamps(struct case_file *file, struct phy phy)
{
    for (uint64_t code = EVENT_TX_OPEN; code <= EVENT_PHY_DISABLED; code++) {
        phy.accept = code % 2;
        event_before_stamps(file, bay_without_base(phy), sample_event(code));
        phy.accept = 1 - phy.accept;
        event_before_stamps(file, bay_with_base(phy, BAY_MOST_COUNTER - code), sample_event(code));
    }
}

static void try_bases(struct case_file *file)
{
    for (size_t i = 0; i < VALID_PAIRS; i++) {
        struct phy phy = pair_record(valid_pairs[i]);

        first_stamps(file, phy);
        ticks_between(file, phy, 7);
        ticks_between(file, phy, BAY_MOST_COUNTER - 500);
        events_before_stamps(file, phy);
    }
}

/* Those that a phy refuses are among them. */
static void try_listed_events(struct case_file *file)
{
    static const struct phy_pair pairs[] = {
        {LINK_IDLE, PORT_IDLE}, {LINK_ARB_SEL, PORT_REQ_WAIT}, {LINK_CONNECTED, PORT_CONNECTED}
    };
    struct phy_event events[MOST_LISTED_EVENTS];
    size_t count = list_events(events);

    for (size_t i = 0; i < sizeof pairs / sizeof pairs[0]; i++) {
        for (size_t k = 0; k < count; k++) {
            struct bay_walk walk;

            bay_walk_start(&walk, bay_with_base(pair_record(pairs[i]), 1000 * k));
            bay_walk_add(&walk, events[k]);
            bay_walk_write(file, &walk);
        }
    }
}

/* ---- Walks ---- */

static void walk_tour(struct case_file *file)
{
    struct bay_walk walk;

    bay_walk_start(&walk, bay_fresh());
    for (size_t i = 0; i < STAMPED_TOUR; i++) {
        bay_walk_add(&walk, stamped_tour[i]);
    }
    bay_walk_write(file, &walk);
}

/* AIPs between stamps keep a request waiting: up to the second slope, along it, and to its end. The gap behind the last
 * of them is long enough for the answer. */
static void walk_long_wait(struct case_file *file, uint64_t wait)
{
    struct phy_event open = sample_event(EVENT_TX_OPEN);
    struct bay_walk walk;

    open.argument[PHY_ARGUMENTS - 1] = wait;
    bay_walk_start(&walk, bay_with_base(phy_fresh(), BAY_MOST_COUNTER));
    bay_walk_add(&walk, open);
    for (int round = 0; round < LONG_ROUNDS; round++) {
        bay_walk_add(&walk, stamp_behind(walk.now.base, ROUND_TICKS));
        bay_walk_add(&walk, plain_event(EVENT_AIP));
    }
    bay_walk_add(&walk, stamp_behind(walk.now.base, 2 * PHY_TIMER_START));
    bay_walk_write(file, &walk);
}

static void seeded_walk(struct case_file *file, struct bay start, size_t events)
{
    struct bay_walk walk;

    bay_walk_start(&walk, start);
    while (walk.count < events) {
        bay_walk_add(&walk, random_bay_event(file, &walk.now));
    }
    bay_walk_write(file, &walk);
}

void make_bay_cases(struct case_file *file)
{
    sweep_gaps(file);
    part_gaps(file);
    try_bases(file);
    try_listed_events(file);
    walk_tour(file);
    walk_long_wait(file, 10000);
    walk_long_wait(file, SECOND_SLOPE_WAIT);
    walk_long_wait(file, 65510);
    for (size_t i = 0; i < VALID_PAIRS; i++) {
        seeded_walk(file, bay_with_base(pair_record(valid_pairs[i]), bases[i % BASES]), SHORT_EVENTS);
    }
    for (int i = 0; i < SEEDED_WALKS; i++) {
        seeded_walk(file, bay_fresh(), LONG_EVENTS);
    }
}
