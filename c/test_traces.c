/*
 * Runs, the events of a trace and its numbers.
 */
#include "inputs.h"
#include "louravela.h"
#include "test.h"

/* ---- Runs ---- */

static const uint8_t sample[] = {0x01, 0x05, 0x01, 0x09, 0xAC, 0x02, 0x00, 0x00, 0x0B, 0x0D};
/* The same with numbers padded: the Tx Open's code in two bytes, its destination in ten. */
static const uint8_t padded[] = {
    0x81, 0x00, 0x85, 0x80, 0x80, 0x80, 0x80, 0x80, 0x80, 0x80, 0x80, 0x00,
    0x81, 0x80, 0x00, 0x89, 0x00, 0xAC, 0x82, 0x80, 0x00, 0x80, 0x00, 0x00,
    0x8B, 0x80, 0x80, 0x00, 0x0D
};
static const uint8_t sample_bytes[] = {0, 0, LOURAVELA_ANSWER_BREAK_RECEIVED};

static void expect_ran(int line, struct louravela_run_reply ran, size_t count, uint64_t how, uint64_t fault, size_t place)
{
    expect(line, "the run's refusal", ran.refusal, LOURAVELA_NOT_REFUSED);
    expect(line, "the count", ran.count, count);
    expect(line, "how it stopped", ran.how, how);
    expect(line, "the fault", ran.fault, fault);
    expect(line, "the fault's place", ran.place, place);
}

#define EXPECT_RAN(ran, count, how, fault, place) expect_ran(__LINE__, ran, count, how, fault, place)

static void expect_run_refused(int line, struct louravela_phy phy, size_t budget, size_t length, uint64_t refusal)
{
    struct louravela_run_reply ran = louravela_phy_run(phy, sample, sizeof sample, budget, lend(), length);
    struct louravela_run_reply wanted = {0};

    wanted.next.phy = phy;
    wanted.refusal = refusal;
    expect(line, "the run's refusal", ran.refusal, refusal);
    expect(line, "the refused run", memcmp(&ran, &wanted, sizeof ran) == 0, 1);
    expect_room(line, 0, room, 0);
}

#define EXPECT_RUN_REFUSED(phy, budget, length, refusal) expect_run_refused(__LINE__, phy, budget, length, refusal)

static void expect_whole_run(int line, const uint8_t *trace, size_t length)
{
    struct louravela_bay fresh = louravela_bay_fresh();
    struct louravela_run_reply ran = louravela_phy_run(fresh.phy, trace, length, ROOM, lend(), ROOM);

    expect_ran(line, ran, 3, LOURAVELA_STOPPED_AT_END, 0, 0);
    expect(line, "the bay after the run", memcmp(&ran.next, &fresh, sizeof fresh) == 0, 1);
    expect_room(line, 0, sample_bytes, 3);
}

#define EXPECT_WHOLE_RUN(trace) expect_whole_run(__LINE__, trace, sizeof(trace))

static void test_runs(void)
{
    struct louravela_phy fresh = louravela_phy_fresh();
    struct louravela_run_reply ran;

    EXPECT_WHOLE_RUN(sample);
    EXPECT_WHOLE_RUN(padded);
    /* the budget, and a buffer that is just as long */
    ran = louravela_phy_run(fresh, sample, sizeof sample, 2, lend(), 2);
    EXPECT_RAN(ran, 2, LOURAVELA_STOPPED_AT_BUDGET, 0, 0);
    EXPECT(ran.next.phy.link, LOURAVELA_L6_BREAK);
    EXPECT_ROOM(0, sample_bytes, 2);
    /* both at once: the end is looked for first */
    ran = louravela_phy_run(fresh, sample, sizeof sample, 3, lend(), 3);
    EXPECT_RAN(ran, 3, LOURAVELA_STOPPED_AT_END, 0, 0);
    ran = louravela_phy_run(fresh, sample, 0, 0, lend(), 0);
    EXPECT_RAN(ran, 0, LOURAVELA_STOPPED_AT_END, 0, 0);
    EXPECT_ROOM(0, room, 0);
    ran = louravela_phy_run(fresh, sample, sizeof sample, 0, lend(), 0);
    EXPECT_RAN(ran, 0, LOURAVELA_STOPPED_AT_BUDGET, 0, 0);
    EXPECT_ROOM(0, room, 0);
}

/* A stamp is one event with one byte, its base begins unset in each run, and one above 32 bits is a fault. */
static void test_stamped_runs(void)
{
    /* the counter at 4,294,967,290, a Tx Open, and 2,000 ticks later, past the counter's end; the stamp is padded */
    static const uint8_t stamped[] = {
        0x10, 0xFA, 0xFF, 0xFF, 0xFF, 0x0F, 0x01, 0x05, 0x01, 0x09, 0xAC, 0x02, 0x00, 0x00,
        0x90, 0x00, 0xCA, 0x8F, 0x80, 0x00
    };
    static const uint8_t above[] = {0x10, 0x80, 0x80, 0x80, 0x80, 0x10};
    static const uint8_t bytes[] = {0, 0, LOURAVELA_ANSWER_OPEN_TIMEOUT};
    struct louravela_phy fresh = louravela_phy_fresh();
    struct louravela_run_reply ran = louravela_phy_run(fresh, stamped, sizeof stamped, ROOM, lend(), ROOM);

    EXPECT_RAN(ran, 3, LOURAVELA_STOPPED_AT_END, 0, 0);
    EXPECT_ROOM(0, bytes, 3);
    EXPECT_SAME(ran.next.phy, fresh);
    EXPECT(ran.next.base, 1994);
    EXPECT(ran.next.base_set, 1);
    ran = louravela_phy_run(fresh, stamped, sizeof stamped, 2, lend(), 2);
    EXPECT(ran.next.base, 4294967290u);
    ran = louravela_phy_run(ran.next.phy, stamped + 14, 6, ROOM, lend(), ROOM);
    EXPECT_RAN(ran, 1, LOURAVELA_STOPPED_AT_END, 0, 0);
    EXPECT_ROOM(0, bytes, 1);
    EXPECT(ran.next.phy.timer, 1000);
    EXPECT(ran.next.base, 1994);
    ran = louravela_phy_run(fresh, above, sizeof above, ROOM, lend(), ROOM);
    EXPECT_RAN(ran, 0, LOURAVELA_STOPPED_AT_FAULT, LOURAVELA_BAD_EVENT, 0);
    EXPECT(ran.next.base_set, 0);
}

static void test_run_faults(void)
{
    struct louravela_phy fresh = louravela_phy_fresh();
    static const uint8_t bad_event[] = {0x0D, 0x11};
    /* two ticks, the second padded, and then a padded code that no event has */
    static const uint8_t padded_17[] = {0x0D, 0x8D, 0x80, 0x00, 0x91, 0x00};
    static const uint8_t too_large[] = {0x07, 0x80, 0x80, 0x80, 0x80, 0x80, 0x80, 0x80, 0x80, 0x80, 0x02};
    struct louravela_run_reply ran = louravela_phy_run(fresh, bad_event, sizeof bad_event, ROOM, lend(), ROOM);

    EXPECT_RAN(ran, 1, LOURAVELA_STOPPED_AT_FAULT, LOURAVELA_BAD_EVENT, 1);
    ran = louravela_phy_run(fresh, sample, 7, ROOM, lend(), ROOM);
    EXPECT_RAN(ran, 0, LOURAVELA_STOPPED_AT_FAULT, LOURAVELA_CUT, 0);
    EXPECT_ROOM(0, room, 0);
    ran = louravela_phy_run(fresh, padded_17, sizeof padded_17, ROOM, lend(), ROOM);
    EXPECT_RAN(ran, 2, LOURAVELA_STOPPED_AT_FAULT, LOURAVELA_BAD_EVENT, 4);
    ran = louravela_phy_run(fresh, too_large, sizeof too_large, ROOM, lend(), ROOM);
    EXPECT_RAN(ran, 0, LOURAVELA_STOPPED_AT_FAULT, LOURAVELA_TOO_LARGE, 0);
    /* a refused event counts as taken, and the refusal is its byte */
    ran = louravela_phy_run(fresh, (const uint8_t *)"\x02\x0D", 2, ROOM, lend(), ROOM);
    EXPECT_RAN(ran, 2, LOURAVELA_STOPPED_AT_END, 0, 0);
    EXPECT_ROOM(0, (const uint8_t *)"\x04\x00", 2);
}

static void test_run_refusals(void)
{
    struct louravela_phy fresh = louravela_phy_fresh();
    struct louravela_phy invalid = fresh;
    struct louravela_phy closed = fresh;
    struct louravela_phy accept = fresh;

    invalid.timer = 1;
    closed.far_closed = 2;
    accept.accept = UINT64_MAX;
    EXPECT_RUN_REFUSED(fresh, 3, 2, LOURAVELA_NO_ROOM);
    EXPECT_RUN_REFUSED(fresh, SIZE_MAX, ROOM, LOURAVELA_NO_ROOM);
    EXPECT_RUN_REFUSED(invalid, 3, ROOM, LOURAVELA_BAD_STATE);
    EXPECT_RUN_REFUSED(invalid, 0, 0, LOURAVELA_BAD_STATE);
    EXPECT_RUN_REFUSED(invalid, 3, 2, LOURAVELA_BAD_STATE);
    EXPECT_RUN_REFUSED(closed, 3, ROOM, LOURAVELA_BAD_STATE);
    EXPECT_RUN_REFUSED(closed, 3, 2, LOURAVELA_BAD_STATE);
    EXPECT_RUN_REFUSED(accept, 3, ROOM, LOURAVELA_BAD_STATE);
    EXPECT_RUN_REFUSED(accept, 3, 2, LOURAVELA_BAD_STATE);
}

/* ---- Events of a trace ---- */

static void expect_nothing(int line, const uint8_t *trace, size_t length, size_t place, uint64_t how, uint64_t refusal)
{
    struct louravela_event_reply found = louravela_event_read(trace, length, place);
    struct louravela_event none = {0};

    expect(line, "what stands there", found.how, how);
    expect(line, "the fault", found.refusal, refusal);
    expect(line, "the place", found.next, place);
    expect(line, "a zero event", memcmp(&found.event, &none, sizeof none) == 0, 1);
}

#define EXPECT_FAULT(trace, length, place, refusal) \
    expect_nothing(__LINE__, trace, length, place, LOURAVELA_FOUND_FAULT, refusal)
#define EXPECT_END(length, place) expect_nothing(__LINE__, sample, length, place, LOURAVELA_FOUND_END, 0)

static void test_event_reads(void)
{
    struct louravela_event_reply found = louravela_event_read(sample, sizeof sample, 0);
    struct louravela_event wanted = {LOURAVELA_TX_OPEN, 5, 1, 9, 300, 0, 0};
    static const uint8_t code_17[] = {0x11};
    static const uint8_t stamp_alone[] = {0x10};
    static const uint8_t counter_most[] = {0x10, 0xFF, 0xFF, 0xFF, 0xFF, 0x0F};
    static const uint8_t counter_above[] = {0x10, 0x80, 0x80, 0x80, 0x80, 0x10};
    static const uint8_t rate_7[] = {0x01, 0x05, 0x01, 0x07};
    static const uint8_t padded_17[] = {0x91, 0x00};
    static const uint8_t large[] = {0x07, 0xFF, 0xFF, 0xFF, 0xFF, 0xFF, 0xFF, 0xFF, 0xFF, 0xFF, 0x80};

    EXPECT(found.how, LOURAVELA_FOUND_EVENT);
    EXPECT(found.refusal, 0);
    EXPECT(found.next, 8);
    EXPECT_SAME(found.event, wanted);
    EXPECT(louravela_event_read(sample, sizeof sample, 9).next, 10);
    found = louravela_event_read(padded, sizeof padded, 0);
    EXPECT(found.next, 24);
    EXPECT_SAME(found.event, wanted);
    EXPECT_END(sizeof sample, sizeof sample);
    EXPECT_END(sizeof sample, sizeof sample + 1);
    EXPECT_END(sizeof sample, SIZE_MAX);
    EXPECT_END(0, 0);
    found = louravela_event_read(counter_most, sizeof counter_most, 0);
    EXPECT(found.next, 6);
    EXPECT(found.event.code, LOURAVELA_TIME_STAMP);
    EXPECT(found.event.first, UINT32_MAX);
    EXPECT_FAULT(counter_above, sizeof counter_above, 0, LOURAVELA_BAD_EVENT);
    EXPECT_FAULT(stamp_alone, sizeof stamp_alone, 0, LOURAVELA_CUT);
    EXPECT_FAULT(code_17, sizeof code_17, 0, LOURAVELA_BAD_EVENT);
    EXPECT_FAULT(rate_7, sizeof rate_7, 0, LOURAVELA_BAD_EVENT);
    EXPECT_FAULT(sample, 5, 0, LOURAVELA_CUT);
    EXPECT_FAULT(sample, 1, 0, LOURAVELA_CUT);
    EXPECT_FAULT(padded_17, sizeof padded_17, 0, LOURAVELA_BAD_EVENT);
    EXPECT_FAULT(large, sizeof large, 0, LOURAVELA_TOO_LARGE);
}

static void expect_event_refused(int line, struct louravela_event event, size_t length, size_t place, uint64_t refusal)
{
    struct louravela_write_reply written = louravela_event_write(event, lend(), length, place);

    expect(line, "the refusal", written.refusal, refusal);
    expect(line, "the length", written.length, 0);
    expect_room(line, 0, room, 0);
}

#define EXPECT_EVENT_REFUSED(event, length, place, refusal) expect_event_refused(__LINE__, event, length, place, refusal)

static void test_event_writes(void)
{
    struct louravela_event event = {LOURAVELA_TX_OPEN, 5, 1, 9, 300, 0, 0};
    struct louravela_event unknown = event_of(0);
    struct louravela_event stamp = event_of(LOURAVELA_TIME_STAMP);
    struct louravela_write_reply written = louravela_event_write(event, lend(), 8, 0);

    EXPECT(written.refusal, 0);
    EXPECT(written.length, 8);
    EXPECT_ROOM(0, sample, 8);
    written = louravela_event_write(event, lend(), ROOM, ROOM - 8);
    EXPECT(written.length, 8);
    EXPECT_ROOM(ROOM - 8, sample, 8);
    EXPECT_EVENT_REFUSED(event, 7, 0, LOURAVELA_NO_ROOM);
    EXPECT_EVENT_REFUSED(event, ROOM, ROOM - 7, LOURAVELA_NO_ROOM);
    EXPECT_EVENT_REFUSED(event, ROOM, ROOM, LOURAVELA_NO_ROOM);
    EXPECT_EVENT_REFUSED(event, ROOM, ROOM + 1, LOURAVELA_NO_ROOM);
    EXPECT_EVENT_REFUSED(event, ROOM, SIZE_MAX, LOURAVELA_NO_ROOM);
    EXPECT_EVENT_REFUSED(event, 0, 0, LOURAVELA_NO_ROOM);
    EXPECT_EVENT_REFUSED(unknown, ROOM, 0, LOURAVELA_BAD_EVENT);
    EXPECT_EVENT_REFUSED(unknown, 0, SIZE_MAX, LOURAVELA_BAD_EVENT);
    event.fourth = 65536;
    EXPECT_EVENT_REFUSED(event, ROOM, 0, LOURAVELA_BAD_EVENT);
    stamp.first = UINT32_MAX;
    written = louravela_event_write(stamp, lend(), ROOM, 0);
    EXPECT(written.length, 6);
    EXPECT_ROOM(0, (const uint8_t *)"\x10\xFF\xFF\xFF\xFF\x0F", 6);
    stamp.first++;
    EXPECT_EVENT_REFUSED(stamp, ROOM, 0, LOURAVELA_BAD_EVENT);
}

/* ---- Numbers ---- */

/* All of the bytes are the number. */
static void expect_number(int line, const uint8_t *bytes, size_t length, uint64_t value)
{
    struct louravela_number_reply found = louravela_number_read(bytes, length, 0);

    expect(line, "the refusal", found.refusal, LOURAVELA_NOT_REFUSED);
    expect(line, "the value", found.value, value);
    expect(line, "the place", found.next, length);
}

#define EXPECT_NUMBER(bytes, value) expect_number(__LINE__, bytes, sizeof(bytes), value)

static void expect_no_number(int line, const uint8_t *bytes, size_t length, size_t place, uint64_t refusal)
{
    struct louravela_number_reply found = louravela_number_read(bytes, length, place);

    expect(line, "the refusal", found.refusal, refusal);
    expect(line, "the value", found.value, 0);
    expect(line, "the place", found.next, place);
}

#define EXPECT_NO_NUMBER(bytes, length, place, refusal) expect_no_number(__LINE__, bytes, length, place, refusal)

static const uint8_t greatest[] = {0xFF, 0xFF, 0xFF, 0xFF, 0xFF, 0xFF, 0xFF, 0xFF, 0xFF, 0x01};

static void test_number_reads(void)
{
    static const uint8_t m11[] = {0xAC, 0x02};
    static const uint8_t m12[] = {0x80, 0x00};
    static const uint8_t tenth_zero[] = {0xFF, 0xFF, 0xFF, 0xFF, 0xFF, 0xFF, 0xFF, 0xFF, 0xFF, 0x00};
    static const uint8_t tenth_two[] = {0x80, 0x80, 0x80, 0x80, 0x80, 0x80, 0x80, 0x80, 0x80, 0x02};
    static const uint8_t tenth_more[] = {0x80, 0x80, 0x80, 0x80, 0x80, 0x80, 0x80, 0x80, 0x80, 0x80};

    EXPECT_NUMBER(m11, 300);
    EXPECT_NUMBER(m12, 0);
    EXPECT_NUMBER(greatest, UINT64_MAX);
    EXPECT_NUMBER(tenth_zero, INT64_MAX);
    EXPECT_NO_NUMBER(tenth_two, sizeof tenth_two, 0, LOURAVELA_TOO_LARGE);
    EXPECT_NO_NUMBER(tenth_more, sizeof tenth_more, 0, LOURAVELA_TOO_LARGE);
    EXPECT_NO_NUMBER(tenth_more, 9, 0, LOURAVELA_CUT);
    EXPECT_NO_NUMBER(greatest, 9, 0, LOURAVELA_CUT);
    EXPECT_NO_NUMBER(m11, 1, 0, LOURAVELA_CUT);
    EXPECT_NO_NUMBER(m11, 0, 0, LOURAVELA_CUT);
    EXPECT_NO_NUMBER(m11, sizeof m11, 2, LOURAVELA_CUT);
    EXPECT_NO_NUMBER(m11, sizeof m11, SIZE_MAX, LOURAVELA_CUT);
}

static void expect_number_refused(int line, uint64_t value, size_t length, size_t place)
{
    struct louravela_write_reply written = louravela_number_write(value, lend(), length, place);

    expect(line, "the refusal", written.refusal, LOURAVELA_NO_ROOM);
    expect(line, "the length", written.length, 0);
    expect_room(line, 0, room, 0);
}

#define EXPECT_NUMBER_REFUSED(value, length, place) expect_number_refused(__LINE__, value, length, place)

static void test_number_writes(void)
{
    struct louravela_write_reply written = louravela_number_write(UINT64_MAX, lend(), 10, 0);

    EXPECT(written.length, 10);
    EXPECT(written.refusal, 0);
    EXPECT_ROOM(0, greatest, 10);
    written = louravela_number_write(300, lend(), ROOM, ROOM - 2);
    EXPECT(written.length, 2);
    EXPECT_ROOM(ROOM - 2, (const uint8_t *)"\xAC\x02", 2);
    EXPECT_NUMBER_REFUSED(UINT64_MAX, 9, 0);
    EXPECT_NUMBER_REFUSED(300, ROOM, ROOM - 1);
    EXPECT_NUMBER_REFUSED(0, ROOM, ROOM);
    EXPECT_NUMBER_REFUSED(0, 0, 0);
    EXPECT_NUMBER_REFUSED(0, ROOM, SIZE_MAX);
}

void test_traces(void)
{
    tested = __FILE__;
    test_runs();
    test_stamped_runs();
    test_run_faults();
    test_run_refusals();
    test_event_reads();
    test_event_writes();
    test_number_reads();
    test_number_writes();
}
