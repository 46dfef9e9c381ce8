/*
 * Steps of a bay: time stamps, and every other event as the phy takes it.
 */
#include "inputs.h"
#include "louravela.h"
#include "test.h"

static struct louravela_event stamp(uint64_t counter)
{
    struct louravela_event event = event_of(LOURAVELA_TIME_STAMP);

    event.first = counter;
    return event;
}

static struct louravela_bay after(struct louravela_bay bay, struct louravela_event event)
{
    return louravela_bay_step(bay, event).next;
}

/* A gap of so many ticks, on a clock whose last stamp was at `base`. */
static struct louravela_bay_stepped after_gap(struct louravela_bay bay, uint32_t base, uint32_t ticks)
{
    bay.base = base;
    bay.base_set = 1;
    return louravela_bay_step(bay, stamp((uint32_t)(base + ticks)));
}

/* Refused: the number, the state as given, every other report zero. */
static void expect_bay_refused(int line, struct louravela_bay bay, struct louravela_event event, uint64_t refusal)
{
    struct louravela_bay_stepped step = louravela_bay_step(bay, event);
    struct louravela_bay_stepped wanted = {0};

    wanted.next = bay;
    wanted.refusal = refusal;
    expect(line, "the refusal", step.refusal, refusal);
    expect(line, "the refused step", memcmp(&step, &wanted, sizeof step) == 0, 1);
}

#define EXPECT_BAY_REFUSED(bay, event, refusal) expect_bay_refused(__LINE__, bay, event, refusal)

static void test_fresh_bay(void)
{
    struct louravela_bay bay = louravela_bay_fresh();
    struct louravela_phy phy = louravela_phy_fresh();

    EXPECT_SAME(bay.phy, phy);
    EXPECT(bay.base, 0);
    EXPECT(bay.base_set, 0);
}

/* Both arguments of a stamp that are wrong, and the three ways in which a clock is. */
static void test_bay_refusals(void)
{
    struct louravela_bay bay = after(louravela_bay_fresh(), tx_open(5));
    struct louravela_event event = stamp(7);

    EXPECT_BAY_REFUSED(bay, stamp(UINT64_C(1) << 32), LOURAVELA_BAD_EVENT);
    EXPECT_BAY_REFUSED(bay, stamp(UINT64_MAX), LOURAVELA_BAD_EVENT);
    event.second = 1;
    EXPECT_BAY_REFUSED(bay, event, LOURAVELA_BAD_EVENT);
    EXPECT_BAY_REFUSED(bay, event_of(17), LOURAVELA_BAD_EVENT);
    EXPECT_BAY_REFUSED(bay, tx_open(5), LOURAVELA_BUSY);
    bay.base = 1;
    EXPECT_BAY_REFUSED(bay, stamp(7), LOURAVELA_BAD_STATE);
    EXPECT_BAY_REFUSED(bay, event_of(LOURAVELA_TICK), LOURAVELA_BAD_STATE);
    bay.base_set = 2;
    EXPECT_BAY_REFUSED(bay, stamp(7), LOURAVELA_BAD_STATE);
    bay.base_set = 1;
    EXPECT_BAY_REFUSED(bay, stamp(UINT64_C(1) << 32), LOURAVELA_BAD_EVENT);
    bay.base = UINT64_C(1) << 32;
    EXPECT_BAY_REFUSED(bay, stamp(7), LOURAVELA_BAD_STATE);
    EXPECT_BAY_REFUSED(bay, event_of(0), LOURAVELA_BAD_STATE);
    bay.base = 1;
    bay.phy.timer = 1001;
    EXPECT_BAY_REFUSED(bay, stamp(7), LOURAVELA_BAD_STATE);
}

/* The first stamp sets the base, a later one moves it, and no other event touches it. */
static void test_base(void)
{
    static const uint64_t others[] = {LOURAVELA_TICK, LOURAVELA_HARD_RESET, LOURAVELA_PHY_DISABLED, LOURAVELA_CANCEL_OPEN};
    struct louravela_bay waiting = after(louravela_bay_fresh(), tx_open(5));
    struct louravela_bay bay = after(waiting, stamp(UINT32_MAX));
    struct louravela_bay again = after(bay, stamp(UINT32_MAX));

    EXPECT_SAME(bay.phy, waiting.phy);
    EXPECT(bay.base, UINT32_MAX);
    EXPECT(bay.base_set, 1);
    for (size_t i = 0; i < sizeof others / sizeof others[0]; i++) {
        EXPECT(after(bay, event_of(others[i])).base, UINT32_MAX);
        EXPECT(after(bay, event_of(others[i])).base_set, 1);
    }
    EXPECT_SAME(again, bay);
    bay = after(bay, stamp(9));
    EXPECT(bay.base, 9);
    EXPECT(bay.phy.timer, 990);
    EXPECT(bay.phy.request.wait, 10);
    /* one step back is nearly the whole way round */
    bay = after(bay, stamp(8));
    EXPECT(bay.base, 8);
    EXPECT(bay.phy.link, LOURAVELA_L0_IDLE);
    /* what is no stamp reports at tick 0 */
    EXPECT_REPORT(louravela_bay_step(bay, tx_open(5)).sent, LOURAVELA_SENT_OPEN, 0);
}

/* An Open without an answer, over one stamp: 2,000 ticks, and not one fewer. */
static void test_gap_from_L1(void)
{
    struct louravela_bay waiting = after(louravela_bay_fresh(), tx_open(5));
    struct louravela_bay_stepped step = after_gap(waiting, 4000000000u, 1999);
    struct louravela_phy fresh = louravela_phy_fresh();

    EXPECT(step.next.phy.timer, 1);
    EXPECT(step.next.phy.request.wait, 1000);
    EXPECT_REPORT(step.answer, 0, 0);
    EXPECT_REPORT(step.sent, LOURAVELA_SENT_BREAK, 1000);
    step = after_gap(waiting, UINT32_MAX - 5, 2000);
    EXPECT_REPORT(step.answer, LOURAVELA_ANSWER_OPEN_TIMEOUT, 2000);
    EXPECT_REPORT(step.notice, 0, 0);
    EXPECT_REPORT(step.second_notice, 0, 0);
    EXPECT_REPORT(step.sent, LOURAVELA_SENT_BREAK, 1000);
    EXPECT(step.answered.destination, 5);
    EXPECT(step.answered.tag, 300);
    EXPECT(step.answered.wait, 1000);
    EXPECT(step.next.base, 1994);
    EXPECT_SAME(step.next.phy, fresh);
}

/* A close that nobody answers: two notices, and the first is kept. */
static void test_gap_from_L4(void)
{
    struct louravela_bay connected = after(after(louravela_bay_fresh(), tx_open(5)), event_of(LOURAVELA_OPEN_ACCEPT_RECEIVED));
    struct louravela_bay closing = after(connected, event_of(LOURAVELA_CLOSE_CONNECTION));
    struct louravela_bay_stepped step = after_gap(closing, 0, UINT32_MAX);

    EXPECT_REPORT(step.notice, LOURAVELA_NOTICE_CLOSE_TIMEOUT, 1000);
    EXPECT_REPORT(step.second_notice, LOURAVELA_NOTICE_TRANSITION_TO_IDLE, 2000);
    EXPECT_REPORT(step.sent, LOURAVELA_SENT_BREAK, 1000);
    EXPECT_REPORT(step.answer, 0, 0);
    EXPECT(step.next.phy.link, LOURAVELA_L0_IDLE);
    step = after_gap(connected, 0, UINT32_MAX);
    EXPECT_SAME(step.next.phy, connected.phy);
}

/* The wait grows by the ticks in P2 and no others. */
static void test_gap_from_L2(void)
{
    struct louravela_bay accepting = after(louravela_bay_fresh(), event_of(LOURAVELA_ACCEPT_OPENS));
    struct louravela_bay selected = after(after(accepting, open_received(7, LOURAVELA_SMP)), tx_open(8));
    struct louravela_bay_stepped step = after_gap(selected, 1, 1000000);

    EXPECT_REPORT(step.answer, LOURAVELA_ANSWER_OPENED_BY_OTHER, 1);
    EXPECT_REPORT(step.notice, LOURAVELA_NOTICE_OPENED, 1);
    EXPECT_REPORT(step.sent, LOURAVELA_SENT_OPEN_ACCEPT, 1);
    EXPECT(step.answered.wait, 1);
    EXPECT(step.next.phy.link, LOURAVELA_L3_CONNECTED);
}

void test_bays(void)
{
    tested = __FILE__;
    test_fresh_bay();
    test_bay_refusals();
    test_base();
    test_gap_from_L1();
    test_gap_from_L4();
    test_gap_from_L2();
}
