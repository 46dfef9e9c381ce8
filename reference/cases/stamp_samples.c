#include "stamp_samples.h"

#include "phy_samples.h"

#define TWO_TO_THE_31 (UINT64_C(1) << 31)
#define TWO_TO_THE_35 (UINT64_C(1) << 35)
#define TWO_TO_THE_63 (UINT64_C(1) << 63)

const uint64_t counters[] = {
    0, 1, 127, 128, 16383, 16384, 2097151, 2097152, 268435455, 268435456,
    TWO_TO_THE_31 - 1, TWO_TO_THE_31, BAY_MOST_COUNTER - 1, BAY_MOST_COUNTER
};
const size_t counter_count = sizeof counters / sizeof counters[0];

const uint64_t bad_counters[] = {
    PAST_32_BITS, PAST_32_BITS + 1, TWO_TO_THE_35 - 1, TWO_TO_THE_35, TWO_TO_THE_63, UINT64_MAX
};
const size_t bad_counter_count = sizeof bad_counters / sizeof bad_counters[0];

const struct phy_event stamped_tour[STAMPED_TOUR] = {
    {EVENT_TX_OPEN, {OTHER_ADDRESS, PROTOCOL_SSP, RATE_3_GBPS, 300, 2, 0}},
    {EVENT_TIME_STAMP, {PAST_32_BITS - 1000}},
    {EVENT_TIME_STAMP, {PAST_32_BITS - 1}},
    {EVENT_TIME_STAMP, {0}},
    {EVENT_TIME_STAMP, {999}},
    {EVENT_TIME_STAMP, {1000}},
    {EVENT_TX_OPEN, {OTHER_ADDRESS, PROTOCOL_SSP, RATE_3_GBPS, 300, 2, 0}},
    {EVENT_OPEN_ACCEPT, {0}},
    {EVENT_TICK, {0}},
    {EVENT_TIME_STAMP, {1000}},
    {EVENT_TICK, {0}},
    {EVENT_CLOSE_CONNECTION, {0}},
    {EVENT_TIME_STAMP, {3000}},
    {EVENT_ACCEPT_OPENS, {0}},
    {EVENT_OPEN_RECEIVED, {OTHER_ADDRESS, PROTOCOL_SMP}},
    {EVENT_TX_OPEN, {OTHER_ADDRESS, PROTOCOL_STP, RATE_1_5_GBPS, 0, 0, PHY_SLOW_WAIT - 1}},
    {EVENT_TIME_STAMP, {3001}},
    {EVENT_TX_OPEN, {OTHER_ADDRESS, PROTOCOL_STP, RATE_1_5_GBPS, 0, 0, 0}},
    {EVENT_BREAK, {0}},
    {EVENT_TIME_STAMP, {3000}},
    {EVENT_OPEN_RECEIVED, {OTHER_ADDRESS, PROTOCOL_STP}},
    {EVENT_TX_OPEN, {WANTED_ADDRESS, PROTOCOL_SMP, RATE_3_GBPS, 1, 1, PHY_MOST_WAIT}},
    {EVENT_TIME_STAMP, {70000}},
    {EVENT_PHY_DISABLED, {0}},
    {EVENT_TX_OPEN, {UINT64_MAX, PROTOCOL_SMP, RATE_3_GBPS, 65535, 255, 1}},
    {EVENT_CANCEL_OPEN, {0}},
    {EVENT_TIME_STAMP, {71000}},
    {EVENT_TX_OPEN, {WANTED_ADDRESS, PROTOCOL_SSP, RATE_3_GBPS, 300, 2, PHY_SLOW_WAIT}},
    {EVENT_BREAK, {0}},
    {EVENT_TIME_STAMP, {71002}},
    {EVENT_TX_OPEN, {WANTED_ADDRESS, PROTOCOL_SSP, RATE_3_GBPS, 300, 2, PHY_SLOW_WAIT}},
    {EVENT_OPEN_RECEIVED, {WANTED_ADDRESS, PROTOCOL_SSP}},
    {EVENT_TIME_STAMP, {TWO_TO_THE_31}},
    {EVENT_OPEN_RECEIVED, {OTHER_ADDRESS, PROTOCOL_SSP}},
    {EVENT_HARD_RESET, {0}},
    {EVENT_TIME_STAMP, {TWO_TO_THE_31 - 1}}
};

struct phy_event stamp_at(uint64_t counter)
{
    return (struct phy_event){.code = EVENT_TIME_STAMP, .argument = {counter}};
}

struct phy_event stamp_behind(uint64_t base, uint64_t ticks)
{
    return stamp_at((base + ticks) % PAST_32_BITS);
}

uint64_t random_counter(struct case_file *file)
{
    uint64_t counter = case_random(file) % PAST_32_BITS;

    return counter >> case_random_below(file, 32);
}

uint64_t random_gap(struct case_file *file)
{
    static const uint64_t gaps[] = {
        0, 1, 1, 1, 2, 2, 3, 500, 998, 999, 999, 1000, 1000, 1000, 1001, 1500, 1998, 1999, 1999, 2000, 2000, 2001,
        65536, TWO_TO_THE_31, PAST_32_BITS - 1
    };

    if (case_random_one_in(file, 16)) {
        return random_counter(file);
    }
    return case_random_of(file, gaps, sizeof gaps / sizeof gaps[0]);
}

struct phy_event random_stamp(struct case_file *file, const struct bay *now)
{
    if (now->base_set == 0) {
        return stamp_at(random_counter(file));
    }
    return stamp_behind(now->base, random_gap(file));
}

struct phy_event random_bay_event(struct case_file *file, const struct bay *now)
{
    uint64_t code = random_likely_code(file, now->phy.link);

    if (case_random_one_in(file, 8)) {
        code = EVENT_TX_OPEN + case_random_below(file, EVENT_TIME_STAMP);
    }
    if (code == EVENT_TIME_STAMP || (code == EVENT_TICK && !case_random_one_in(file, 4))) {
        return random_stamp(file, now);
    }
    return random_event_of(file, code);
}
