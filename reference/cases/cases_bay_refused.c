#include "cases.h"

#include "bay_samples.h"
#include "bay_walk.h"
#include "phy_fields.h"
#include "phy_samples.h"
#include "stamp_samples.h"

struct clock {
    uint64_t base;
    uint64_t base_set;
};

static struct bay bay_of(struct phy phy, struct clock clock)
{
    return (struct bay){.phy = phy, .base = clock.base, .base_set = clock.base_set};
}

/* ---- Bays that are not valid: no event is taken, and none is found to be bad ---- */

static void refuse_every_event(struct case_file *file, struct bay bay)
{
    const struct phy_event events[] = {
        stamp_at(0), stamp_at(BAY_MOST_COUNTER), stamp_at(PAST_32_BITS), plain_event(EVENT_TICK),
        sample_event(EVENT_TX_OPEN), plain_event(EVENT_CLOSE_CONNECTION), plain_event(EVENT_HARD_RESET),
        plain_event(0), plain_event(EVENT_TIME_STAMP + 1)
    };
    struct bay_walk walk;

    bay_walk_start(&walk, bay);
    for (size_t i = 0; i < sizeof events / sizeof events[0]; i++) {
        bay_walk_add(&walk, events[i]);
    }
    bay_walk_write(file, &walk);
}

/* Numbers that are no flag, no base or no base without the flag; of some the low bits alone would pass. */
static void refuse_clocks(struct case_file *file, struct phy phy)
{
    static const struct clock clocks[] = {
        {0, 2}, {5, 2}, {0, UINT64_MAX}, {7, UINT64_MAX}, {0, PAST_8_BITS}, {0, PAST_32_BITS}, {3, PAST_32_BITS + 1},
        {PAST_32_BITS, 1}, {PAST_32_BITS + 5, 1}, {UINT64_MAX, 1},
        {1, 0}, {BAY_MOST_COUNTER, 0}, {PAST_32_BITS, 0}, {UINT64_MAX, 0}
    };

    for (size_t i = 0; i < sizeof clocks / sizeof clocks[0]; i++) {
        refuse_every_event(file, bay_of(phy, clocks[i]));
    }
}

static const struct clock good_clocks[] = {{0, 0}, {0, 1}, {1000, 1}, {BAY_MOST_COUNTER, 1}};
enum { GOOD_CLOCKS = sizeof good_clocks / sizeof good_clocks[0] };

static void refuse_pairs(struct case_file *file)
{
    for (uint64_t link = LINK_IDLE; link <= LINK_BREAK + 1; link++) {
        for (uint64_t port = PORT_IDLE - 1; port <= PORT_WAIT_FOR_CLOSE + 1; port++) {
            struct phy phy = sample_record(link, port, 0);

            if (!phy_is_valid(&phy)) {
                refuse_every_event(file, bay_of(phy, good_clocks[(link + port) % GOOD_CLOCKS]));
            }
        }
    }
}

/* The last value of a field is out of its range, but for an address; a stamp that is bad too comes second to that. */
static void judge_fields(struct case_file *file, struct phy phy)
{
    for (enum phy_field field = FIELD_LINK; field < PHY_FIELDS; field++) {
        const struct field_values *values = &phy_field_values[field];
        uint64_t fields[PHY_FIELDS];
        struct bay_walk walk;

        phy_to_fields(&phy, fields);
        fields[field] = values->values[values->count - 1];
        bay_walk_start(&walk, bay_of(phy_from_fields(fields), good_clocks[field % GOOD_CLOCKS]));
        bay_walk_add(&walk, stamp_at(PAST_32_BITS));
        bay_walk_add(&walk, stamp_at(1001));
        bay_walk_write(file, &walk);
    }
}

/* ---- Bad events ---- */

/* Too large, or with another argument that is not zero. */
static void add_bad_stamps(struct bay_walk *walk)
{
    for (size_t i = 0; i < bad_counter_count; i++) {
        bay_walk_add(walk, stamp_at(bad_counters[i]));
    }
    for (size_t which = 1; which < PHY_ARGUMENTS; which++) {
        struct phy_event stamp = stamp_at(which % 2 == 0 ? 0 : BAY_MOST_COUNTER);

        stamp.argument[which] = 1;
        bay_walk_add(walk, stamp);
        stamp.argument[which] = UINT64_MAX;
        bay_walk_add(walk, stamp);
    }
}

static void add_unknown_codes(struct bay_walk *walk)
{
    static const uint64_t codes[] = {
        0, 17, 18, 255, PAST_8_BITS + EVENT_TIME_STAMP, PAST_32_BITS + EVENT_TIME_STAMP, UINT64_MAX
    };

    for (size_t i = 0; i < sizeof codes / sizeof codes[0]; i++) {
        bay_walk_add(walk, plain_event(codes[i]));
        bay_walk_add(walk, (struct phy_event){codes[i], {1000}});
    }
}

/* A refused step keeps the bay, so one walk shows them all; the last stamp is taken. */
static void refuse_events(struct case_file *file, struct bay bay)
{
    struct bay_walk walk;

    bay_walk_start(&walk, bay);
    add_bad_stamps(&walk);
    add_unknown_codes(&walk);
    bay_walk_add(&walk, stamp_behind(bay.base, 1));
    bay_walk_write(file, &walk);
}

void make_refused_bay_cases(struct case_file *file)
{
    refuse_pairs(file);
    /* A clock is judged alike in every pair, so a few of them will do. */
    for (size_t i = 0; i < VALID_PAIRS; i += 3) {
        refuse_clocks(file, pair_record(valid_pairs[i]));
    }
    for (size_t i = 0; i < VALID_PAIRS; i++) {
        struct phy phy = pair_record(valid_pairs[i]);

        judge_fields(file, phy);
        refuse_events(file, bay_without_base(phy));
        refuse_events(file, bay_with_base(phy, BAY_MOST_COUNTER));
    }
}
