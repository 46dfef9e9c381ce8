/*
 * Steps of the phy and of the two machines beside it.
 */
#include "inputs.h"
#include "louravela.h"
#include "test.h"

/* ---- The phy ---- */

static struct louravela_phy after(struct louravela_phy phy, struct louravela_event event)
{
    return louravela_phy_step(phy, event).next;
}

static struct louravela_phy after_ticks(struct louravela_phy phy, int ticks)
{
    while (ticks-- > 0) {
        phy = after(phy, event_of(LOURAVELA_TICK));
    }
    return phy;
}

/* Refused: the number, the state as given, every other report zero. */
static void expect_refused(int line, struct louravela_phy phy, struct louravela_event event, uint64_t refusal)
{
    struct louravela_stepped step = louravela_phy_step(phy, event);
    struct louravela_stepped wanted = {0};

    wanted.next = phy;
    wanted.refusal = refusal;
    expect(line, "the refusal", step.refusal, refusal);
    expect(line, "the refused step", memcmp(&step, &wanted, sizeof step) == 0, 1);
}

#define EXPECT_REFUSED(phy, event, refusal) expect_refused(__LINE__, phy, event, refusal)

static void test_fresh(void)
{
    struct louravela_phy phy = louravela_phy_fresh();
    struct louravela_phy wanted = {0};

    wanted.port = LOURAVELA_P1_IDLE;
    EXPECT_SAME(phy, wanted);
}

static const uint64_t no_flags[] = {2, 255, 256, UINT64_C(1) << 32, UINT64_MAX};

static void test_bad_states(void)
{
    struct louravela_phy connected =
        after(after(louravela_phy_fresh(), tx_open(5)), event_of(LOURAVELA_OPEN_ACCEPT_RECEIVED));
    struct louravela_event tick = event_of(LOURAVELA_TICK);
    struct louravela_event unknown = event_of(16);

    for (size_t i = 0; i < sizeof no_flags / sizeof no_flags[0]; i++) {
        struct louravela_phy phy = louravela_phy_fresh();

        phy.accept = no_flags[i];
        EXPECT_REFUSED(phy, tick, LOURAVELA_BAD_STATE);
        EXPECT_REFUSED(phy, unknown, LOURAVELA_BAD_STATE);
        phy.accept = 0;
        phy.far_closed = no_flags[i];
        EXPECT_REFUSED(phy, tick, LOURAVELA_BAD_STATE);
        connected.far_closed = no_flags[i];
        EXPECT_REFUSED(connected, event_of(LOURAVELA_CLOSE_CONNECTION), LOURAVELA_BAD_STATE);
    }
    for (size_t field = 0; field < sizeof(struct louravela_phy) / sizeof(uint64_t); field++) {
        uint64_t numbers[sizeof(struct louravela_phy) / sizeof(uint64_t)];
        struct louravela_phy phy = louravela_phy_fresh();

        memcpy(numbers, &phy, sizeof phy);
        numbers[field] += 9;
        memcpy(&phy, numbers, sizeof phy);
        EXPECT_REFUSED(phy, tick, LOURAVELA_BAD_STATE);
    }
}

static void test_bad_events(void)
{
    struct louravela_phy phy = louravela_phy_fresh();
    struct louravela_event event = tx_open(5);

    EXPECT_REFUSED(phy, event_of(0), LOURAVELA_BAD_EVENT);
    EXPECT_REFUSED(phy, event_of(16), LOURAVELA_BAD_EVENT);
    EXPECT_REFUSED(phy, event_of(UINT64_MAX), LOURAVELA_BAD_EVENT);
    event.third = 7;
    EXPECT_REFUSED(phy, event, LOURAVELA_BAD_EVENT);
    event = tx_open(5);
    event.sixth = 65536;
    EXPECT_REFUSED(phy, event, LOURAVELA_BAD_EVENT);
    event = event_of(LOURAVELA_TICK);
    event.sixth = 1;
    EXPECT_REFUSED(phy, event, LOURAVELA_BAD_EVENT);
    event = event_of(LOURAVELA_OPEN_REJECT_RECEIVED);
    event.first = 8;
    EXPECT_REFUSED(phy, event, LOURAVELA_BAD_EVENT);
}

static void test_refusals_of_events(void)
{
    struct louravela_phy idle = louravela_phy_fresh();
    struct louravela_phy waiting = after(idle, tx_open(5));
    struct louravela_phy connected = after(waiting, event_of(LOURAVELA_OPEN_ACCEPT_RECEIVED));
    struct louravela_event broken = tx_open(5);

    broken.second = 3;
    EXPECT_REFUSED(waiting, tx_open(5), LOURAVELA_BUSY); /* M10 */
    EXPECT_REFUSED(waiting, broken, LOURAVELA_BAD_EVENT);
    EXPECT_REFUSED(idle, event_of(LOURAVELA_CANCEL_OPEN), LOURAVELA_NOTHING_PENDING);
    EXPECT_REFUSED(idle, event_of(LOURAVELA_CLOSE_CONNECTION), LOURAVELA_NOT_CONNECTED);
    EXPECT_REFUSED(waiting, event_of(LOURAVELA_SMP_TRANSMIT_BREAK), LOURAVELA_NOT_CONNECTED);
    EXPECT_REFUSED(connected, event_of(LOURAVELA_SMP_TRANSMIT_BREAK), LOURAVELA_WRONG_PROTOCOL);
}

/* M3 and M4: 2,000 ticks, and not one fewer. */
static void test_timeout(void)
{
    struct louravela_phy phy = after_ticks(after(louravela_phy_fresh(), tx_open(5)), 1999);
    struct louravela_stepped step = louravela_phy_step(phy, event_of(LOURAVELA_TICK));
    struct louravela_phy fresh = louravela_phy_fresh();

    EXPECT(phy.port, LOURAVELA_P4_WAIT_FOR_CLOSE);
    EXPECT(phy.link, LOURAVELA_L5_BREAK_WAIT);
    EXPECT(phy.timer, 1);
    EXPECT(step.answer, LOURAVELA_ANSWER_OPEN_TIMEOUT);
    EXPECT(step.answered.destination, 5);
    EXPECT(step.answered.protocol, LOURAVELA_SSP);
    EXPECT(step.answered.rate, 9);
    EXPECT(step.answered.tag, 300);
    EXPECT(step.answered.blocked_count, 2);
    EXPECT(step.answered.wait, 1000);
    EXPECT(step.notice, 0);
    EXPECT(step.sent, 0);
    EXPECT(step.refusal, LOURAVELA_NOT_REFUSED);
    EXPECT_SAME(step.next, fresh);
}

/* M6 and M7, and the flags as numbers. */
static void test_opened(void)
{
    struct louravela_phy phy = after(louravela_phy_fresh(), event_of(LOURAVELA_ACCEPT_OPENS));
    struct louravela_phy selected = after(phy, open_received(7, LOURAVELA_SMP));
    struct louravela_stepped step = louravela_phy_step(after(selected, tx_open(7)), event_of(LOURAVELA_TICK));

    EXPECT(phy.accept, 1);
    EXPECT(step.answer, LOURAVELA_ANSWER_OPENED_BY_DESTINATION);
    EXPECT(step.answered.wait, 1);
    EXPECT(step.notice, LOURAVELA_NOTICE_OPENED);
    EXPECT(step.sent, LOURAVELA_SENT_OPEN_ACCEPT);
    EXPECT(step.next.link, LOURAVELA_L3_CONNECTED);
    EXPECT(step.next.port, LOURAVELA_P3_CONNECTED);
    EXPECT(after(step.next, event_of(LOURAVELA_CLOSE_RECEIVED)).far_closed, 1);
    step = louravela_phy_step(after(selected, tx_open(8)), event_of(LOURAVELA_TICK));
    EXPECT(step.answer, LOURAVELA_ANSWER_OPENED_BY_OTHER);
    step = louravela_phy_step(selected, event_of(LOURAVELA_PHY_DISABLED));
    EXPECT(step.next.accept, 0);
}

static struct louravela_phy waiting_from(uint64_t wait)
{
    struct louravela_event event = tx_open(5);

    event.sixth = wait;
    return after(louravela_phy_fresh(), event);
}

/* microseconds to 32,768, then a thousand ticks for each further one, to 65,535. */
static void test_slopes(void)
{
    struct louravela_phy phy = after_ticks(waiting_from(32767), 1);

    EXPECT(phy.request.wait, 32768);
    EXPECT(phy.part, 0);
    phy = after_ticks(phy, 998);
    EXPECT(phy.request.wait, 32768);
    EXPECT(phy.part, 998);
    phy = after_ticks(after(phy, event_of(LOURAVELA_AIP_RECEIVED)), 1);
    EXPECT(phy.part, 999);
    phy = after_ticks(phy, 1);
    EXPECT(phy.request.wait, 32769);
    EXPECT(phy.part, 0);
    phy = waiting_from(40000);
    EXPECT(phy.part, 0);
    phy = after_ticks(waiting_from(65534), 999);
    EXPECT(phy.request.wait, 65534);
    EXPECT(phy.part, 999);
    phy = after_ticks(after(phy, event_of(LOURAVELA_AIP_RECEIVED)), 1);
    EXPECT(phy.request.wait, 65535);
    EXPECT(phy.part, 0);
    phy = after_ticks(phy, 998);
    EXPECT(phy.request.wait, 65535);
    EXPECT(phy.part, 0);
}

/* the part goes on while the port is in P2, ends with it, and no answer carries it. */
static void test_part_in_P2(void)
{
    struct louravela_phy phy = after_ticks(waiting_from(32768), 999);
    struct louravela_phy selected = after(phy, open_received(7, LOURAVELA_SMP));
    struct louravela_phy broken = after(selected, event_of(LOURAVELA_BREAK_RECEIVED));
    struct louravela_phy given_up = after(phy, event_of(LOURAVELA_CANCEL_OPEN));
    struct louravela_stepped step = louravela_phy_step(broken, event_of(LOURAVELA_TICK));

    EXPECT(selected.part, 999);
    EXPECT(broken.part, 999);
    EXPECT(step.answer, LOURAVELA_ANSWER_COLLIDED);
    EXPECT(step.answered.wait, 32769);
    EXPECT(step.next.part, 0);
    EXPECT(given_up.part, 0);
    EXPECT(given_up.request.wait, 32768);
    step = louravela_phy_step(phy, event_of(LOURAVELA_OPEN_ACCEPT_RECEIVED));
    EXPECT(step.answered.wait, 32768);
    EXPECT(step.next.part, 0);
}

static void test_bad_parts(void)
{
    static const uint64_t waits[] = {0, 32767, 65535};
    struct louravela_event tick = event_of(LOURAVELA_TICK);
    struct louravela_phy phy = waiting_from(32768);
    struct louravela_phy given_up = after(phy, event_of(LOURAVELA_CANCEL_OPEN));

    phy.part = 1000;
    EXPECT_REFUSED(phy, tick, LOURAVELA_BAD_STATE);
    phy.part = UINT64_MAX;
    EXPECT_REFUSED(phy, tick, LOURAVELA_BAD_STATE);
    given_up.part = 1;
    EXPECT_REFUSED(given_up, tick, LOURAVELA_BAD_STATE);
    for (size_t i = 0; i < sizeof waits / sizeof waits[0]; i++) {
        phy = waiting_from(waits[i]);
        phy.part = 1;
        EXPECT_REFUSED(phy, tick, LOURAVELA_BAD_STATE);
    }
}

/* ---- The two machines beside the phy ---- */

static uint64_t dws_after(uint64_t state, const uint64_t *events, size_t count)
{
    for (size_t i = 0; i < count; i++) {
        state = louravela_dws_step(state, events[i]).state;
    }
    return state;
}

static void expect_dws_refused(int line, uint64_t state, uint64_t event, uint64_t refusal)
{
    struct louravela_dws_stepped step = louravela_dws_step(state, event);

    expect(line, "the refusal", step.refusal, refusal);
    expect(line, "the state", step.state, state);
    expect(line, "the report", step.report, 0);
}

static void test_dws(void)
{
    static const uint64_t m1[] = {0, 1, 2};
    static const uint64_t m2[] = {0, 1, 0, 1, 0, 1, 0};

    EXPECT(louravela_dws_fresh(), 0);
    EXPECT(dws_after(3, m1, 3), 3);
    EXPECT(dws_after(3, m2, 7), 0);
    EXPECT(louravela_dws_step(2, LOURAVELA_DWS_PRIMITIVE).report, LOURAVELA_DWS_ACQUIRED);
    EXPECT(louravela_dws_step(9, LOURAVELA_DWS_INVALID_DWORD).report, LOURAVELA_DWS_LOST);
    EXPECT(louravela_dws_step(9, LOURAVELA_DWS_RESTART).report, 0);
    expect_dws_refused(__LINE__, 10, 0, LOURAVELA_BAD_STATE);
    expect_dws_refused(__LINE__, UINT64_MAX, 4, LOURAVELA_BAD_STATE);
    expect_dws_refused(__LINE__, 9, 4, LOURAVELA_BAD_EVENT);
}

static void expect_identify_refused(int line, struct louravela_identification state, uint64_t event, uint64_t argument,
                                    uint64_t refusal)
{
    struct louravela_identify_stepped step = louravela_identify_step(state, event, argument);
    struct louravela_identify_stepped wanted = {0};

    wanted.next = state;
    wanted.refusal = refusal;
    expect(line, "the refusal", step.refusal, refusal);
    expect(line, "the refused step", memcmp(&step, &wanted, sizeof step) == 0, 1);
}

#define EXPECT_IDENTIFY_REFUSED(state, event, argument, refusal) \
    expect_identify_refused(__LINE__, state, event, argument, refusal)

static void test_identify(void)
{
    struct louravela_identification state = louravela_identify_fresh();
    struct louravela_identification fresh = {0};
    struct louravela_identify_stepped step;

    EXPECT_SAME(state, fresh);
    state = louravela_identify_step(state, LOURAVELA_IDENTIFY_OWN_FRAME_SENT, 0).next;
    EXPECT(state.sent, 1);
    EXPECT(state.timer, 1000);
    state = louravela_identify_step(state, LOURAVELA_IDENTIFY_SOAF, 0).next;
    for (int i = 0; i < 8; i++) {
        state = louravela_identify_step(state, LOURAVELA_IDENTIFY_DATA_DWORD, UINT64_C(0xF0FFFFFF)).next;
    }
    EXPECT(state.typed, 1);
    EXPECT(state.count, 8);
    step = louravela_identify_step(state, LOURAVELA_IDENTIFY_EOAF, 1);
    EXPECT(step.report, LOURAVELA_IDENTIFY_COMPLETE);
    EXPECT(step.next.got, 1);
    EXPECT(step.next.outcome, LOURAVELA_IDENTIFY_COMPLETE);
    step = louravela_identify_step(state, LOURAVELA_IDENTIFY_DATA_DWORD, 0);
    EXPECT(step.report, LOURAVELA_IDENTIFY_FAILED);
    EXPECT(step.next.receiver, LOURAVELA_RECEIVER_SPOILED);
}

static void test_identify_refusals(void)
{
    struct louravela_identification state = louravela_identify_fresh();

    EXPECT_IDENTIFY_REFUSED(state, 8, 0, LOURAVELA_BAD_EVENT);
    EXPECT_IDENTIFY_REFUSED(state, LOURAVELA_IDENTIFY_SOAF, 1, LOURAVELA_BAD_EVENT);
    EXPECT_IDENTIFY_REFUSED(state, LOURAVELA_IDENTIFY_EOAF, 2, LOURAVELA_BAD_EVENT);
    EXPECT_IDENTIFY_REFUSED(state, LOURAVELA_IDENTIFY_DATA_DWORD, UINT64_C(1) << 32, LOURAVELA_BAD_EVENT);
    state.timer = 1;
    EXPECT_IDENTIFY_REFUSED(state, LOURAVELA_IDENTIFY_TICK, 0, LOURAVELA_BAD_STATE);
    for (size_t i = 0; i < sizeof no_flags / sizeof no_flags[0]; i++) {
        state = louravela_identify_fresh();
        state.typed = no_flags[i];
        EXPECT_IDENTIFY_REFUSED(state, 8, 0, LOURAVELA_BAD_STATE);
        state.typed = 0;
        state.got = no_flags[i];
        EXPECT_IDENTIFY_REFUSED(state, LOURAVELA_IDENTIFY_ENABLE, 0, LOURAVELA_BAD_STATE);
        state.got = 0;
        state.sent = no_flags[i];
        EXPECT_IDENTIFY_REFUSED(state, LOURAVELA_IDENTIFY_ENABLE, 0, LOURAVELA_BAD_STATE);
    }
}

void test_machines(void)
{
    tested = __FILE__;
    test_fresh();
    test_bad_states();
    test_bad_events();
    test_refusals_of_events();
    test_timeout();
    test_opened();
    test_slopes();
    test_part_in_P2();
    test_bad_parts();
    test_dws();
    test_identify();
    test_identify_refusals();
}
