/*
 * What a time stamp costs, by the state that its gap begins in and by the number of its ticks.
 */
#include "gaps.h"

#include "bay.h"
#include "inputs.h"
#include "louravela.h"

/* After so many ticks none changes anything. */
enum { REST = 2000 };

static struct louravela_bay our_bay;
static struct bay their_bay;
static struct louravela_event our_stamp;
static struct phy_event their_stamp;

/* ---- States; all timers are at 1,000 ---- */

static void take(struct louravela_event event)
{
    our_bay = louravela_bay_step(our_bay, event).next;
    their_bay = bay_step(their_bay, their_event(&event)).bay;
}

static void idle(void)
{
    our_bay = louravela_bay_fresh();
    their_bay = bay_fresh();
    take(event_of(LOURAVELA_TIME_STAMP));
}

static void requesting(void)
{
    struct louravela_event tx_open = {LOURAVELA_TX_OPEN, 5, LOURAVELA_SSP, 9, 300, 0, 0};

    idle();
    take(tx_open);
}

static void closing(void)
{
    requesting();
    take(event_of(LOURAVELA_OPEN_ACCEPT_RECEIVED));
    take(event_of(LOURAVELA_CLOSE_CONNECTION));
}

static void selected(void)
{
    idle();
    take(event_of(LOURAVELA_OPEN_RECEIVED));
}

/* ---- Gaps ---- */

static const struct gap {
    const char *name;
    void (*begin)(void);
    uint32_t ticks;
} gaps[] = {
    {"gap-L0-10", idle, 10},
    {"gap-L0-1000", idle, 1000},
    {"gap-L0-1000000", idle, 1000000},
    {"gap-L0-4294967295", idle, UINT32_MAX},
    {"gap-L1-10", requesting, 10},
    {"gap-L1-1000", requesting, 1000},
    {"gap-L1-1000000", requesting, 1000000},
    {"gap-L1-4294967295", requesting, UINT32_MAX},
    {"gap-L4-10", closing, 10},
    {"gap-L4-1000", closing, 1000},
    {"gap-L4-1000000", closing, 1000000},
    {"gap-L4-4294967295", closing, UINT32_MAX},
    {"gap-L2-10", selected, 10},
    {"gap-L2-1000", selected, 1000},
    {"gap-L2-1000000", selected, 1000000},
    {"gap-L2-4294967295", selected, UINT32_MAX}
};

const size_t gap_count = sizeof gaps / sizeof gaps[0];

const char *gap_name(size_t which)
{
    return gaps[which].name;
}

void prepare_gap(size_t which)
{
    gaps[which].begin();
    our_stamp = event_of(LOURAVELA_TIME_STAMP);
    our_stamp.first = gaps[which].ticks;
    their_stamp = their_event(&our_stamp);
}

unsigned gap_moves(size_t which)
{
    uint32_t ticks = gaps[which].ticks < REST ? gaps[which].ticks : REST;
    unsigned moves = 0;

    prepare_gap(which);
    while (ticks-- > 0) {
        uint64_t before = our_bay.phy.link;

        take(event_of(LOURAVELA_TICK));
        moves += our_bay.phy.link != before;
    }
    return moves;
}

uint64_t our_gaps(size_t count)
{
    uint64_t sum = 0;

    while (count-- > 0) {
        struct louravela_bay_stepped step = louravela_bay_step(our_bay, our_stamp);

        sum += step.answer.tick + step.notice.code + step.second_notice.tick + step.sent.tick + step.next.base;
    }
    return sum;
}

uint64_t their_gaps(size_t count)
{
    uint64_t sum = 0;

    while (count-- > 0) {
        struct bay_result step = bay_step(their_bay, their_stamp);

        sum += step.answer.tick + step.notice.code + step.second_notice.tick + step.sent.tick + step.bay.base;
    }
    return sum;
}
