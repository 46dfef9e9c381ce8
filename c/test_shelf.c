/*
 * A port: steps and runs on a row and a queue that C lends, and what is lent wrongly. Both stand in a larger room, and
 * after each call all of it is compared.
 */
#include "inputs.h"
#include "louravela.h"
#include "test.h"

enum {
    BAYS = LOURAVELA_MOST_PHYS,
    NUMBERS = LOURAVELA_QUEUE_NUMBERS,
    OPEN_NUMBERS = sizeof(struct louravela_open) / sizeof(uint64_t),
    BAY_NUMBERS = sizeof(struct louravela_bay) / sizeof(uint64_t),
    GUARDS = 4
};

/* What is lent, and around it what no call may touch. All of it is numbers, so equal bytes are equal shelves. */
struct shelf {
    uint64_t before[GUARDS];
    struct louravela_bay row[BAYS + 1];
    uint64_t between[GUARDS];
    uint64_t queue[NUMBERS + 1];
    uint64_t behind[GUARDS];
    size_t phys;    /* so many of the row are lent */
    size_t numbers; /* and so many of the queue */
};

static const struct louravela_port_reports no_reports;

/* ---- Shelves ---- */

static struct louravela_bay after(struct louravela_bay bay, struct louravela_event event)
{
    return louravela_bay_step(bay, event).next;
}

/* In P2 with L1, and its destination is 5. */
static struct louravela_bay busy_bay(void)
{
    return after(louravela_bay_fresh(), tx_open(5));
}

static struct louravela_bay connected_bay(void)
{
    return after(busy_bay(), event_of(LOURAVELA_OPEN_ACCEPT_RECEIVED));
}

/* An empty queue; behind what is lent of the row stand valid bays that are not fresh. */
static struct shelf fresh_shelf(size_t phys)
{
    struct shelf shelf;

    memset(&shelf, 0xA5, sizeof shelf);
    memset(shelf.queue, 0, sizeof shelf.queue);
    for (size_t i = 0; i <= BAYS; i++) {
        shelf.row[i] = i < phys ? louravela_bay_fresh() : connected_bay();
    }
    shelf.phys = phys;
    shelf.numbers = NUMBERS;
    return shelf;
}

/* The numbers of tx_open(destination), where the Open in this place waits. */
static void put_open(struct shelf *shelf, size_t place, uint64_t destination)
{
    struct louravela_open open = {destination, LOURAVELA_SSP, 9, 300, 2, 0};

    memcpy(shelf->queue + place * OPEN_NUMBERS, &open, sizeof open);
}

/* No phy is free, and so many Opens wait, to the destinations 10, 11 and so on. */
static struct shelf busy_shelf(size_t phys, size_t waiting)
{
    struct shelf shelf = fresh_shelf(phys);

    for (size_t i = 0; i < phys; i++) {
        shelf.row[i] = busy_bay();
    }
    for (size_t i = 0; i < waiting; i++) {
        put_open(&shelf, i, 10 + i);
    }
    return shelf;
}

static struct louravela_port_stepped take(struct shelf *shelf, uint64_t number, struct louravela_event event)
{
    return louravela_port_step(shelf->row, shelf->phys, shelf->queue, shelf->numbers, number, event);
}

static struct louravela_port_run_reply run(struct shelf *shelf, const uint8_t *trace, size_t length, size_t budget,
                                           size_t buffer_length)
{
    return louravela_port_run(shelf->row, shelf->phys, shelf->queue, shelf->numbers, trace, length, budget, lend(),
                              buffer_length);
}

/* ---- What a step gives ---- */

static void expect_handed(int line, struct louravela_port_stepped step, uint64_t phy)
{
    expect(line, "the phy that received an Open", step.handed, phy);
    expect(line, "what it sent", step.handed_sent, phy == LOURAVELA_HANDED_TO_NONE ? 0 : LOURAVELA_SENT_OPEN);
}

#define EXPECT_HANDED(step, phy) expect_handed(__LINE__, step, phy)
#define EXPECT_NONE_HANDED(step) expect_handed(__LINE__, step, LOURAVELA_HANDED_TO_NONE)

/* Refused: the number, every other report zero, no hand-out, and all that was lent as it was. */
static void expect_step_refused(int line, const struct shelf *given, uint64_t number, struct louravela_event event,
                                uint64_t refusal)
{
    struct shelf shelf = *given;
    struct louravela_port_stepped step = take(&shelf, number, event);
    struct louravela_port_stepped wanted = {0};

    wanted.reports.refusal = refusal;
    wanted.handed = LOURAVELA_HANDED_TO_NONE;
    expect(line, "the refusal", step.reports.refusal, refusal);
    expect(line, "the refused step", memcmp(&step, &wanted, sizeof step) == 0, 1);
    expect(line, "all that was lent as it was", memcmp(&shelf, given, sizeof shelf) == 0, 1);
}

#define EXPECT_STEP_REFUSED(shelf, number, event, refusal) \
    expect_step_refused(__LINE__, &(shelf), number, event, refusal)

/* An Open to the port goes to the lowest-numbered free phy, and no other record changes. */
static void test_handed_at_once(void)
{
    struct shelf shelf = fresh_shelf(4);
    struct shelf wanted;
    struct louravela_port_stepped step;

    shelf.row[0] = busy_bay();
    shelf.row[1] = after(louravela_bay_fresh(), open_received(7, LOURAVELA_SMP)); /* P1, and not L0 */
    wanted = shelf;
    wanted.row[2] = after(louravela_bay_fresh(), tx_open(6));
    step = take(&shelf, LOURAVELA_THE_PORT, tx_open(6));
    EXPECT_SAME(step.reports, no_reports);
    EXPECT_HANDED(step, 2);
    EXPECT_SAME(shelf, wanted);
}

/* Where none is free it waits: six numbers for each, the oldest first, zeros behind, and no wait grows. */
static void test_waits(void)
{
    static const uint64_t two_opens[3 * OPEN_NUMBERS] = {20, 1, 9, 300, 2, 0, 21, 1, 9, 300, 2, 32767};
    struct louravela_event second = tx_open(21);
    struct shelf shelf = busy_shelf(2, 0);
    struct shelf wanted = shelf;
    struct louravela_port_stepped step = take(&shelf, LOURAVELA_THE_PORT, tx_open(20));

    EXPECT_SAME(step.reports, no_reports);
    EXPECT_NONE_HANDED(step);
    second.sixth = 32767;
    take(&shelf, LOURAVELA_THE_PORT, second);
    memcpy(wanted.queue, two_opens, sizeof two_opens);
    EXPECT_SAME(shelf, wanted);
    take(&shelf, 1, event_of(LOURAVELA_TICK));
    wanted.row[1] = after(wanted.row[1], event_of(LOURAVELA_TICK));
    EXPECT_SAME(shelf, wanted);
    /* handed out, it has the wait that it came with */
    take(&shelf, 1, event_of(LOURAVELA_HARD_RESET));
    take(&shelf, 0, event_of(LOURAVELA_PHY_DISABLED));
    EXPECT(shelf.row[1].phy.request.wait, 0);
    EXPECT(shelf.row[0].phy.request.wait, 32767);
    EXPECT(shelf.queue[0], 0);
}

/* An event that frees a phy: its own reports, and behind it the hand-out of the oldest Open. */
static void test_hand_out(void)
{
    struct louravela_event reject = event_of(LOURAVELA_OPEN_REJECT_RECEIVED);
    struct shelf shelf = busy_shelf(3, 2);
    struct shelf wanted = busy_shelf(3, 0);
    struct louravela_port_reports reports = {0};
    struct louravela_port_stepped step;

    reject.first = 1;
    reports.answered = shelf.row[1].phy.request;
    reports.answer.code = LOURAVELA_ANSWER_NO_DESTINATION;
    wanted.row[1] = after(louravela_bay_fresh(), tx_open(10));
    put_open(&wanted, 0, 11);
    step = take(&shelf, 1, reject);
    EXPECT_SAME(step.reports, reports);
    EXPECT_HANDED(step, 1);
    EXPECT_SAME(shelf, wanted);
    /* a Retry Open is not queued again, and where none waits the phy stays free */
    take(&shelf, 0, event_of(LOURAVELA_OPEN_REJECT_RECEIVED));
    step = take(&shelf, 2, event_of(LOURAVELA_OPEN_REJECT_RECEIVED));
    EXPECT(step.reports.answer.code, LOURAVELA_ANSWER_RETRY);
    EXPECT_NONE_HANDED(step);
    wanted.row[0] = after(louravela_bay_fresh(), tx_open(11));
    wanted.row[2] = louravela_bay_fresh();
    memset(wanted.queue, 0, sizeof wanted.queue);
    EXPECT_SAME(shelf, wanted);
}

/* A full queue, drained: each Open once, in the order in which it was accepted. */
static void test_in_order(void)
{
    struct shelf shelf = busy_shelf(1, LOURAVELA_MOST_WAITING - 1);
    struct louravela_port_stepped step = take(&shelf, LOURAVELA_THE_PORT, tx_open(41));
    struct shelf wanted = busy_shelf(1, LOURAVELA_MOST_WAITING);

    EXPECT(step.reports.refusal, LOURAVELA_NOT_REFUSED);
    EXPECT_SAME(shelf, wanted);
    EXPECT_STEP_REFUSED(shelf, LOURAVELA_THE_PORT, tx_open(42), LOURAVELA_QUEUE_FULL);
    for (uint64_t i = 0; i < LOURAVELA_MOST_WAITING; i++) {
        step = take(&shelf, 0, event_of(LOURAVELA_HARD_RESET));
        EXPECT(step.reports.answer.code, LOURAVELA_ANSWER_TERMINATED);
        EXPECT(step.reports.answered.destination, i == 0 ? 5 : 9 + i);
        EXPECT_HANDED(step, 0);
        EXPECT(shelf.row[0].phy.request.destination, 10 + i);
    }
    step = take(&shelf, 0, event_of(LOURAVELA_HARD_RESET));
    EXPECT(step.reports.answered.destination, 41);
    EXPECT_NONE_HANDED(step);
    wanted = fresh_shelf(1);
    EXPECT_SAME(shelf, wanted);
}

/* A Tx Open with a phy's number goes to that phy, though a lower one is free or Opens wait. */
static void test_straight(void)
{
    struct shelf shelf = fresh_shelf(3);
    struct shelf wanted = shelf;
    struct louravela_port_stepped step = take(&shelf, 2, tx_open(6));

    EXPECT(step.reports.sent.code, LOURAVELA_SENT_OPEN);
    EXPECT_NONE_HANDED(step);
    wanted.row[2] = after(louravela_bay_fresh(), tx_open(6));
    EXPECT_SAME(shelf, wanted);
    shelf = busy_shelf(2, 3);
    shelf.row[1] = after(louravela_bay_fresh(), open_received(7, LOURAVELA_SMP));
    wanted = shelf;
    wanted.row[1] = after(shelf.row[1], tx_open(6));
    step = take(&shelf, 1, tx_open(6));
    EXPECT(step.reports.refusal, LOURAVELA_NOT_REFUSED);
    EXPECT_NONE_HANDED(step);
    EXPECT_SAME(shelf, wanted);
}

/* Each phy has its own base, and the hand-out follows the whole gap. */
static void test_stamps(void)
{
    struct louravela_event stamp = event_of(LOURAVELA_TIME_STAMP);
    struct shelf shelf = busy_shelf(2, 1);
    struct shelf wanted = busy_shelf(2, 0);
    struct louravela_port_stepped step;

    stamp.first = UINT32_MAX;
    step = take(&shelf, 1, stamp);
    EXPECT_SAME(step.reports, no_reports);
    EXPECT_NONE_HANDED(step);
    stamp.first = 4999;
    step = take(&shelf, 1, stamp);
    EXPECT_REPORT(step.reports.answer, LOURAVELA_ANSWER_OPEN_TIMEOUT, 2000);
    EXPECT_REPORT(step.reports.sent, LOURAVELA_SENT_BREAK, 1000);
    EXPECT(step.reports.answered.destination, 5);
    EXPECT(step.reports.answered.wait, 1000);
    EXPECT_HANDED(step, 1);
    wanted.row[1] = after(louravela_bay_fresh(), tx_open(10));
    wanted.row[1].base = 4999;
    wanted.row[1].base_set = 1;
    EXPECT_SAME(shelf, wanted);
}

/* A close that nobody answers, over one stamp: both notices, each with its tick. */
static void test_two_notices(void)
{
    struct louravela_event stamp = event_of(LOURAVELA_TIME_STAMP);
    struct shelf shelf = fresh_shelf(1);
    struct louravela_port_stepped step;

    shelf.row[0] = after(connected_bay(), event_of(LOURAVELA_CLOSE_CONNECTION));
    take(&shelf, 0, stamp);
    stamp.first = 2000;
    step = take(&shelf, 0, stamp);
    EXPECT_REPORT(step.reports.notice, LOURAVELA_NOTICE_CLOSE_TIMEOUT, 1000);
    EXPECT_REPORT(step.reports.second_notice, LOURAVELA_NOTICE_TRANSITION_TO_IDLE, 2000);
}

/* ---- Refusals of a step, in their order ---- */

static const uint64_t no_phys[] = {8, 9, 126, 128, 255, 127 + 256, UINT64_C(1) << 32, (UINT64_C(1) << 32) + 127,
                                   UINT64_C(1) << 63, UINT64_MAX};

/* 12 is for any number but the phys' and the port's, and before what a phy would say. */
static void test_no_such_phy(void)
{
    struct shelf shelf = busy_shelf(BAYS, LOURAVELA_MOST_WAITING);

    for (size_t i = 0; i < sizeof no_phys / sizeof no_phys[0]; i++) {
        EXPECT_STEP_REFUSED(shelf, no_phys[i], event_of(LOURAVELA_TICK), LOURAVELA_NO_SUCH_PHY);
        EXPECT_STEP_REFUSED(shelf, no_phys[i], tx_open(5), LOURAVELA_NO_SUCH_PHY);
        EXPECT_STEP_REFUSED(shelf, no_phys[i], event_of(LOURAVELA_CLOSE_CONNECTION), LOURAVELA_NO_SUCH_PHY);
        EXPECT_STEP_REFUSED(shelf, no_phys[i], event_of(17), LOURAVELA_BAD_EVENT);
    }
    for (size_t phys = 1; phys < BAYS; phys++) {
        shelf = fresh_shelf(phys);
        EXPECT_STEP_REFUSED(shelf, phys, event_of(LOURAVELA_TICK), LOURAVELA_NO_SUCH_PHY);
        EXPECT(take(&shelf, phys - 1, event_of(LOURAVELA_TICK)).reports.refusal, LOURAVELA_NOT_REFUSED);
    }
}

/* To the port only a Tx Open may go, and it is judged before the queue is asked. */
static void test_bad_events(void)
{
    struct shelf shelf = fresh_shelf(2);
    struct shelf full = busy_shelf(2, LOURAVELA_MOST_WAITING);
    struct louravela_event event = tx_open(5);

    for (uint64_t code = 0; code <= 17; code++) {
        if (code != LOURAVELA_TX_OPEN) {
            EXPECT_STEP_REFUSED(shelf, LOURAVELA_THE_PORT, event_of(code), LOURAVELA_BAD_EVENT);
            EXPECT_STEP_REFUSED(full, LOURAVELA_THE_PORT, event_of(code), LOURAVELA_BAD_EVENT);
        }
    }
    event.third = 7;
    EXPECT_STEP_REFUSED(full, LOURAVELA_THE_PORT, event, LOURAVELA_BAD_EVENT);
    EXPECT_STEP_REFUSED(shelf, 0, event, LOURAVELA_BAD_EVENT);
    event = event_of(LOURAVELA_TIME_STAMP);
    event.first = UINT64_C(1) << 32;
    EXPECT_STEP_REFUSED(shelf, 1, event, LOURAVELA_BAD_EVENT);
    EXPECT_STEP_REFUSED(shelf, 1, event_of(UINT64_MAX), LOURAVELA_BAD_EVENT);
}

/* 3 to 6, as the phy says them; a full queue is nothing to an event for a phy. */
static void test_refusals_of_phys(void)
{
    struct shelf shelf = busy_shelf(2, LOURAVELA_MOST_WAITING);

    EXPECT_STEP_REFUSED(shelf, 0, tx_open(5), LOURAVELA_BUSY);
    EXPECT_STEP_REFUSED(shelf, 1, event_of(LOURAVELA_SMP_TRANSMIT_BREAK), LOURAVELA_NOT_CONNECTED);
    EXPECT_STEP_REFUSED(shelf, 1, event_of(LOURAVELA_CLOSE_CONNECTION), LOURAVELA_NOT_CONNECTED);
    shelf.row[1] = connected_bay();
    EXPECT_STEP_REFUSED(shelf, 1, event_of(LOURAVELA_SMP_TRANSMIT_BREAK), LOURAVELA_WRONG_PROTOCOL);
    EXPECT_STEP_REFUSED(shelf, 1, event_of(LOURAVELA_CANCEL_OPEN), LOURAVELA_NOTHING_PENDING);
    EXPECT_STEP_REFUSED(shelf, LOURAVELA_THE_PORT, tx_open(5), LOURAVELA_QUEUE_FULL);
    EXPECT(take(&shelf, 0, event_of(LOURAVELA_TICK)).reports.refusal, LOURAVELA_NOT_REFUSED);
}

/* ---- What is lent wrongly, to either function ---- */

/* Two ticks of phy 0. */
static const uint8_t ticks[] = {0x00, 0x0D, 0x00, 0x0D};

static void expect_run_refused(int line, const struct shelf *given, size_t budget, size_t length, uint64_t refusal)
{
    struct shelf shelf = *given;
    struct louravela_port_run_reply ran = run(&shelf, ticks, sizeof ticks, budget, length);
    struct louravela_port_run_reply wanted = {0};

    wanted.refusal = refusal;
    expect(line, "the run's refusal", ran.refusal, refusal);
    expect(line, "the refused run", memcmp(&ran, &wanted, sizeof ran) == 0, 1);
    expect(line, "all that was lent as it was", memcmp(&shelf, given, sizeof shelf) == 0, 1);
    expect_room(line, 0, room, 0);
}

#define EXPECT_RUN_REFUSED(shelf, budget, length, refusal) \
    expect_run_refused(__LINE__, &(shelf), budget, length, refusal)

/* A bad state comes before all else that is wrong. */
static void expect_bad(int line, const struct shelf *shelf)
{
    expect_step_refused(line, shelf, 0, event_of(LOURAVELA_TICK), LOURAVELA_BAD_STATE);
    expect_step_refused(line, shelf, LOURAVELA_THE_PORT, tx_open(5), LOURAVELA_BAD_STATE);
    expect_step_refused(line, shelf, LOURAVELA_THE_PORT, event_of(LOURAVELA_TICK), LOURAVELA_BAD_STATE);
    expect_step_refused(line, shelf, 0, event_of(17), LOURAVELA_BAD_STATE);
    expect_step_refused(line, shelf, BAYS, event_of(LOURAVELA_TICK), LOURAVELA_BAD_STATE);
    expect_run_refused(line, shelf, 2, ROOM, LOURAVELA_BAD_STATE);
    expect_run_refused(line, shelf, 0, 0, LOURAVELA_BAD_STATE);
    expect_run_refused(line, shelf, 2, 1, LOURAVELA_BAD_STATE);
}

#define EXPECT_BAD(shelf) expect_bad(__LINE__, &(shelf))

static void test_bad_rows(void)
{
    struct shelf shelf = fresh_shelf(BAYS);

    shelf.phys = 0;
    EXPECT_BAD(shelf);
    shelf.phys = BAYS + 1;
    EXPECT_BAD(shelf);
    shelf = busy_shelf(BAYS, 1);
    shelf.phys = 0;
    EXPECT_BAD(shelf);
    shelf.phys = BAYS + 1;
    EXPECT_BAD(shelf);
}

/* Each field of a fresh bay so that it is no valid one: none is in use there, or the number is out of range. */
static struct louravela_bay spoiled_bay(size_t field)
{
    struct louravela_bay bay = louravela_bay_fresh();
    uint64_t numbers[BAY_NUMBERS];

    memcpy(numbers, &bay, sizeof bay);
    numbers[field] += 9;
    memcpy(&bay, numbers, sizeof bay);
    return bay;
}

/* In each place of a row of each length; the other bays are valid. */
static void test_bad_bays(void)
{
    for (size_t phys = 1; phys <= BAYS; phys++) {
        for (size_t place = 0; place < phys; place++) {
            struct shelf shelf = fresh_shelf(phys);

            for (size_t field = 0; field < BAY_NUMBERS; field++) {
                shelf.row[place] = spoiled_bay(field);
                EXPECT_BAD(shelf);
            }
        }
    }
}

/* Flags of 7, and a clock that is no valid one, in each place beside busy phys and Opens that wait. */
static void test_bad_flags(void)
{
    for (size_t place = 0; place < BAYS; place++) {
        struct shelf shelf = busy_shelf(BAYS, 2);

        shelf.row[place].phy.accept = 7;
        EXPECT_BAD(shelf);
        shelf.row[place] = connected_bay();
        shelf.row[place].phy.far_closed = 7;
        EXPECT_BAD(shelf);
        shelf.row[place] = busy_bay();
        shelf.row[place].base_set = 7;
        EXPECT_BAD(shelf);
        shelf.row[place].base = UINT64_C(1) << 32;
        shelf.row[place].base_set = 1;
        EXPECT_BAD(shelf);
        shelf.row[place].base = 1;
        shelf.row[place].base_set = 0;
        EXPECT_BAD(shelf);
    }
}

static void test_bad_lengths(void)
{
    static const size_t lengths[] = {0, 1, OPEN_NUMBERS, NUMBERS - OPEN_NUMBERS, NUMBERS - 1, NUMBERS + 1};

    for (size_t i = 0; i < sizeof lengths / sizeof lengths[0]; i++) {
        struct shelf shelf = fresh_shelf(2);

        shelf.numbers = lengths[i];
        EXPECT_BAD(shelf);
        shelf = busy_shelf(2, 1);
        shelf.numbers = lengths[i];
        EXPECT_BAD(shelf);
    }
}

/* Each argument out of its range, in the first, a middle and the last of 32 Opens. */
static void test_bad_opens(void)
{
    static const size_t places[] = {0, 13, LOURAVELA_MOST_WAITING - 1};
    static const struct louravela_open wrong[] = {
        {5, 3, 9, 300, 2, 0},     {5, 1, 7, 300, 2, 0},   {5, 1, 10, 300, 2, 0},   {5, 1, 0, 300, 2, 0},
        {5, 1, 9, 65536, 2, 0},   {5, 1, 9, 300, 256, 0}, {5, 1, 9, 300, 2, 65536}, {5, 1, 9, UINT64_MAX, 2, 0},
        {0, 0, 0, 0, 0, 1}
    };

    for (size_t i = 0; i < sizeof places / sizeof places[0]; i++) {
        for (size_t k = 0; k < sizeof wrong / sizeof wrong[0]; k++) {
            struct shelf shelf = busy_shelf(3, LOURAVELA_MOST_WAITING);

            memcpy(shelf.queue + places[i] * OPEN_NUMBERS, &wrong[k], sizeof wrong[k]);
            EXPECT_BAD(shelf);
        }
    }
}

/* Behind the last Open any number but zero, and an Open behind a gap. */
static void test_bad_rest(void)
{
    for (size_t waiting = 0; waiting < LOURAVELA_MOST_WAITING; waiting += 5) {
        for (size_t at = waiting * OPEN_NUMBERS; at < NUMBERS; at++) {
            struct shelf shelf = busy_shelf(1, waiting);

            shelf.queue[at] = 1;
            EXPECT_BAD(shelf);
        }
        if (waiting > 0) {
            struct shelf shelf = busy_shelf(1, waiting - 1);

            put_open(&shelf, waiting, 5);
            EXPECT_BAD(shelf);
        }
    }
}

/* An Open that waits beside a free phy, which is in each place of the row; an Open more does not matter. */
static void test_beside_free(void)
{
    for (size_t phys = 1; phys <= BAYS; phys++) {
        for (size_t place = 0; place < phys; place++) {
            struct shelf shelf = busy_shelf(phys, 1);

            shelf.row[place] = louravela_bay_fresh();
            EXPECT_BAD(shelf);
            put_open(&shelf, 1, 5);
            EXPECT_BAD(shelf);
            /* in P1, and yet not free */
            shelf.row[place] = after(louravela_bay_fresh(), open_received(7, LOURAVELA_SMP));
            EXPECT(take(&shelf, place, event_of(LOURAVELA_ACCEPT_OPENS)).reports.refusal, LOURAVELA_NOT_REFUSED);
        }
    }
}

/* ---- Runs ---- */

/*
 * For two phys: three Opens to the port, of which the last waits; a BREAK; an OPEN_REJECT, behind which that one is
 * handed out; a tick that answers; a tick to no phy, and one to the port.
 */
static const uint8_t sample[] = {
    0x7F, 0x01, 0x05, 0x01, 0x09, 0xAC, 0x02, 0x02, 0x00,
    0x7F, 0x01, 0x06, 0x01, 0x09, 0xAC, 0x02, 0x02, 0x00,
    0x7F, 0x01, 0x07, 0x01, 0x09, 0xAC, 0x02, 0x02, 0x00,
    0x01, 0x0B, 0x00, 0x09, 0x01, 0x01, 0x0D, 0x02, 0x0D, 0x7F, 0x0D
};
static const uint8_t sample_bytes[] = {
    0, 0, 0, 0, LOURAVELA_ANSWER_NO_DESTINATION, LOURAVELA_ANSWER_BREAK_RECEIVED, LOURAVELA_NO_SUCH_PHY,
    LOURAVELA_BAD_EVENT
};

/* The shelf after four, and after all of its events. */
static struct shelf after_four(void)
{
    struct shelf shelf = fresh_shelf(2);

    shelf.row[0] = busy_bay();
    shelf.row[1] = after(after(louravela_bay_fresh(), tx_open(6)), event_of(LOURAVELA_BREAK_RECEIVED));
    put_open(&shelf, 0, 7);
    return shelf;
}

static struct shelf after_all(void)
{
    struct shelf shelf = fresh_shelf(2);

    shelf.row[0] = after(louravela_bay_fresh(), tx_open(7));
    return shelf;
}

static void expect_ran(int line, struct louravela_port_run_reply ran, size_t count, uint64_t how, uint64_t fault,
                       size_t place)
{
    struct louravela_port_run_reply wanted = {count, how, fault, place, LOURAVELA_NOT_REFUSED};

    expect(line, "the count", ran.count, count);
    expect(line, "what the run gives", memcmp(&ran, &wanted, sizeof ran) == 0, 1);
    expect_room(line, 0, sample_bytes, count);
}

#define EXPECT_RAN(ran, count, how, fault, place) expect_ran(__LINE__, ran, count, how, fault, place)

static void test_runs(void)
{
    struct shelf fresh = fresh_shelf(2);
    struct shelf four = after_four();
    struct shelf all = after_all();
    struct shelf shelf = fresh;

    EXPECT_RAN(run(&shelf, sample, sizeof sample, ROOM, ROOM), 8, LOURAVELA_STOPPED_AT_END, 0, 0);
    EXPECT_SAME(shelf, all);
    /* the budget, and a buffer that is just as long */
    shelf = fresh;
    EXPECT_RAN(run(&shelf, sample, sizeof sample, 4, 4), 4, LOURAVELA_STOPPED_AT_BUDGET, 0, 0);
    EXPECT_SAME(shelf, four);
    /* both at once: the end is looked for first */
    shelf = fresh;
    EXPECT_RAN(run(&shelf, sample, sizeof sample, 8, 8), 8, LOURAVELA_STOPPED_AT_END, 0, 0);
    EXPECT_SAME(shelf, all);
    shelf = four;
    EXPECT_RAN(run(&shelf, sample, 0, 0, 0), 0, LOURAVELA_STOPPED_AT_END, 0, 0);
    EXPECT_RAN(run(&shelf, sample, 0, ROOM, ROOM), 0, LOURAVELA_STOPPED_AT_END, 0, 0);
    EXPECT_RAN(run(&shelf, sample, sizeof sample, 0, 0), 0, LOURAVELA_STOPPED_AT_BUDGET, 0, 0);
    EXPECT_SAME(shelf, four);
}

/* Stopped inside a trace: row, queue and bytes are those of the events before. */
static void test_run_faults(void)
{
    static const uint8_t faults[][12] = {
        {0x00},                                                             /* a phy's number, and no event */
        {0x00, 0x11},                                                       /* no such code */
        {0x00, 0x10, 0x80, 0x80, 0x80, 0x80, 0x10},                         /* a stamp above 32 bits */
        {0x80},                                                             /* a phy's number is cut */
        {0x80, 0x80, 0x80, 0x80, 0x80, 0x80, 0x80, 0x80, 0x80, 0x02, 0x0D}, /* or too large */
        {0x7F, 0x01, 0x05, 0x01}                                            /* an Open is cut */
    };
    static const size_t lengths[] = {1, 2, 7, 1, 11, 4};
    static const uint64_t numbers[] = {LOURAVELA_CUT, LOURAVELA_BAD_EVENT, LOURAVELA_BAD_EVENT, LOURAVELA_CUT,
                                       LOURAVELA_TOO_LARGE, LOURAVELA_CUT};
    enum { FOUR_EVENTS = 29 };
    struct shelf four = after_four();
    uint8_t trace[FOUR_EVENTS + sizeof faults[0]];

    memcpy(trace, sample, FOUR_EVENTS);
    for (size_t i = 0; i < sizeof lengths / sizeof lengths[0]; i++) {
        struct shelf shelf = fresh_shelf(2);

        memcpy(trace + FOUR_EVENTS, faults[i], lengths[i]);
        EXPECT_RAN(run(&shelf, trace, FOUR_EVENTS + lengths[i], ROOM, ROOM), 4, LOURAVELA_STOPPED_AT_FAULT, numbers[i],
                   FOUR_EVENTS);
        EXPECT_SAME(shelf, four);
        /* the budget is looked for before a fault */
        shelf = fresh_shelf(2);
        EXPECT_RAN(run(&shelf, trace, FOUR_EVENTS + lengths[i], 4, ROOM), 4, LOURAVELA_STOPPED_AT_BUDGET, 0, 0);
    }
}

/* Any number is read before an event, padded ones too, and judged by the port. */
static void test_run_numbers(void)
{
    static const uint8_t numbers[] = {
        0x80, 0x80, 0x00, 0x05, /* phy 0: Accept Opens */
        0xFF, 0xFF, 0xFF, 0xFF, 0xFF, 0xFF, 0xFF, 0xFF, 0xFF, 0x01, 0x05,
        0xFF, 0x80, 0x00, 0x05, /* the port */
        0x02, 0x02
    };
    static const uint8_t bytes[] = {0, LOURAVELA_NO_SUCH_PHY, LOURAVELA_BAD_EVENT, LOURAVELA_NOTHING_PENDING};
    struct shelf shelf = fresh_shelf(3);
    struct shelf wanted = shelf;
    struct louravela_port_run_reply ran = run(&shelf, numbers, sizeof numbers, ROOM, ROOM);

    wanted.row[0].phy.accept = 1;
    EXPECT(ran.count, 4);
    EXPECT(ran.how, LOURAVELA_STOPPED_AT_END);
    EXPECT_ROOM(0, bytes, 4);
    EXPECT_SAME(shelf, wanted);
}

/* Written event by event: one Open goes to the phy, 32 wait, and one is refused. */
static void test_run_full(void)
{
    enum { OPENS = LOURAVELA_MOST_WAITING + 2, OPEN_BYTES = 9 };
    uint8_t trace[OPENS * OPEN_BYTES];
    uint8_t bytes[OPENS] = {0};
    struct shelf shelf = fresh_shelf(1);
    struct shelf wanted = busy_shelf(1, LOURAVELA_MOST_WAITING);
    size_t length = 0;

    for (uint64_t i = 0; i < OPENS; i++) {
        length += louravela_number_write(LOURAVELA_THE_PORT, trace, sizeof trace, length).length;
        length += louravela_event_write(tx_open(i == 0 ? 5 : 9 + i), trace, sizeof trace, length).length;
    }
    EXPECT(run(&shelf, trace, length, OPENS, OPENS).count, OPENS);
    bytes[OPENS - 1] = LOURAVELA_QUEUE_FULL;
    EXPECT_ROOM(0, bytes, OPENS);
    EXPECT_SAME(shelf, wanted);
}

/* Read event by event and stepped: the same bytes and the same shelf. */
static void test_run_by_steps(void)
{
    struct shelf shelf = fresh_shelf(2);
    struct shelf wanted = after_all();
    size_t place = 0;

    for (size_t i = 0; i < sizeof sample_bytes; i++) {
        struct louravela_number_reply number = louravela_number_read(sample, sizeof sample, place);
        struct louravela_event_reply found = louravela_event_read(sample, sizeof sample, number.next);
        struct louravela_port_stepped step = take(&shelf, number.value, found.event);

        EXPECT(step.reports.refusal != 0 ? step.reports.refusal : step.reports.answer.code, sample_bytes[i]);
        place = found.next;
    }
    EXPECT(place, sizeof sample);
    EXPECT_SAME(shelf, wanted);
}

/* The base of every bay begins unset in each run, and is given back in its record. */
static void test_run_stamps(void)
{
    /* phy 1 at 4,294,967,290 and 2,000 ticks later; phy 0 at 7 */
    static const uint8_t stamped[] = {
        0x01, 0x10, 0xFA, 0xFF, 0xFF, 0xFF, 0x0F, 0x00, 0x10, 0x07, 0x01, 0x10, 0xCA, 0x0F
    };
    static const uint8_t bytes[] = {0, 0, LOURAVELA_ANSWER_OPEN_TIMEOUT};
    struct shelf shelf = busy_shelf(2, 1);
    struct shelf wanted = busy_shelf(2, 1);

    shelf.row[0].base = shelf.row[1].base = 5;
    shelf.row[0].base_set = shelf.row[1].base_set = 1;
    EXPECT_RUN_REFUSED(shelf, 3, 2, LOURAVELA_NO_ROOM);
    EXPECT_RUN_REFUSED(shelf, SIZE_MAX, ROOM, LOURAVELA_NO_ROOM);
    EXPECT(run(&shelf, stamped, 0, ROOM, ROOM).refusal, LOURAVELA_NOT_REFUSED);
    EXPECT_SAME(shelf, wanted);
    shelf.row[0].base_set = 1;
    EXPECT(run(&shelf, stamped, sizeof stamped, ROOM, ROOM).count, 3);
    EXPECT_ROOM(0, bytes, 3);
    wanted = busy_shelf(2, 0);
    wanted.row[0].base = 7;
    wanted.row[0].base_set = 1;
    wanted.row[1] = after(louravela_bay_fresh(), tx_open(10));
    wanted.row[1].base = 1994;
    wanted.row[1].base_set = 1;
    EXPECT_SAME(shelf, wanted);
}

static void test_shelf_steps(void)
{
    test_handed_at_once();
    test_waits();
    test_hand_out();
    test_in_order();
    test_straight();
    test_stamps();
    test_two_notices();
    test_no_such_phy();
    test_bad_events();
    test_refusals_of_phys();
}

void test_shelf(void)
{
    tested = __FILE__;
    test_shelf_steps();
    test_bad_rows();
    test_bad_bays();
    test_bad_flags();
    test_bad_lengths();
    test_bad_opens();
    test_bad_rest();
    test_beside_free();
    test_runs();
    test_run_faults();
    test_run_numbers();
    test_run_full();
    test_run_by_steps();
    test_run_stamps();
}
