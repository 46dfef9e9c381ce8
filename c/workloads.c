/*
 * What speed measures: inputs, and the same work on them by the archives and by the reference.
 */
#include "workloads.h"

#include "inputs.h"
#include "louravela.h"
#include "number.h"
#include "phy.h"
#include "run.h"
#include "shelf_loads.h"
#include "trace.h"

enum { MOST_EVENT_BYTES = 24, STEP_EVENTS = 1024, OPEN_TICKS = 2000 };

static uint8_t trace[(size_t)MOST_EVENTS * MOST_EVENT_BYTES];
static uint8_t lent[MOST_EVENTS];
static size_t trace_length;
static struct louravela_event our_events[STEP_EVENTS];
static struct phy_event their_events[STEP_EVENTS];

/* ---- Inputs ---- */

static void append(struct louravela_event event)
{
    trace_length += louravela_event_write(event, trace, sizeof trace, trace_length).length;
}

static void prepare_ticks(size_t count)
{
    while (count-- > 0) {
        append(event_of(LOURAVELA_TICK));
    }
}

/* Each Open goes through 1,000 ticks in L1 and 1,000 in L5. */
static void prepare_opens(size_t count)
{
    struct louravela_event tx_open = {LOURAVELA_TX_OPEN, 5, 1, 9, 300, 0, 0};

    for (size_t i = 0; i < count; i++) {
        append(i % (OPEN_TICKS + 1) == 0 ? tx_open : event_of(LOURAVELA_TICK));
    }
}

static void prepare_short(size_t count)
{
    while (count-- > 0) {
        append(mixed_event(0, 128));
    }
}

static void prepare_long(size_t count)
{
    while (count-- > 0) {
        append(mixed_event(UINT64_C(1) << 63, UINT64_C(1) << 63));
    }
}

static void prepare_steps(size_t count)
{
    (void)count;
    for (size_t i = 0; i < STEP_EVENTS; i++) {
        our_events[i] = mixed_event(0, 128);
        their_events[i] = their_event(&our_events[i]);
    }
}

static void prepare_tick_steps(size_t count)
{
    (void)count;
    for (size_t i = 0; i < STEP_EVENTS; i++) {
        our_events[i] = event_of(LOURAVELA_TICK);
        their_events[i] = their_event(&our_events[i]);
    }
}

static void prepare_numbers(size_t count, uint64_t value)
{
    while (count-- > 0) {
        trace_length += louravela_number_write(value, trace, sizeof trace, trace_length).length;
    }
}

static void prepare_numbers_1(size_t count)
{
    prepare_numbers(count, 5);
}

static void prepare_numbers_3(size_t count)
{
    prepare_numbers(count, 65535);
}

static void prepare_numbers_10(size_t count)
{
    prepare_numbers(count, UINT64_MAX);
}

static void prepare_nothing(size_t count)
{
    (void)count;
}

/* ---- Work; each gives a sum, so that none of it can be left out ---- */

static uint64_t our_run(size_t count)
{
    struct louravela_run_reply ran = louravela_phy_run(louravela_phy_fresh(), trace, trace_length, count, lent, count);

    return ran.count + lent[count - 1];
}

static uint64_t their_run(size_t count)
{
    struct run_trace bytes = {trace, trace_length};
    struct run_buffer buffer = {lent, count};
    struct run_result ran = run(phy_fresh(), bytes, count, buffer);

    return ran.count + lent[count - 1];
}

static uint64_t our_steps(size_t count)
{
    struct louravela_phy phy = louravela_phy_fresh();
    uint64_t sum = 0;

    for (size_t i = 0; i < count; i++) {
        struct louravela_stepped step = louravela_phy_step(phy, our_events[i % STEP_EVENTS]);

        phy = step.next;
        sum += step.answer + step.refusal;
    }
    return sum;
}

static uint64_t their_steps(size_t count)
{
    struct phy phy = phy_fresh();
    uint64_t sum = 0;

    for (size_t i = 0; i < count; i++) {
        struct phy_result step = phy_step(phy, their_events[i % STEP_EVENTS]);

        phy = step.phy;
        sum += step.answer + step.refusal;
    }
    return sum;
}

static uint64_t our_event_reads(size_t count)
{
    uint64_t sum = 0;
    size_t place = 0;

    while (count-- > 0) {
        struct louravela_event_reply found = louravela_event_read(trace, trace_length, place);

        place = found.next;
        sum += found.event.code + found.event.first;
    }
    return sum;
}

static uint64_t their_event_reads(size_t count)
{
    uint64_t sum = 0;
    size_t place = 0;

    while (count-- > 0) {
        struct event_read found = event_read(trace, trace_length, place);

        place = found.next;
        sum += found.event.code + found.event.argument[0];
    }
    return sum;
}

static uint64_t our_event_writes(size_t count)
{
    uint64_t sum = 0;

    for (size_t i = 0; i < count; i++) {
        sum += louravela_event_write(our_events[i % STEP_EVENTS], lent, MOST_EVENT_BYTES, 0).length;
    }
    return sum;
}

static uint64_t their_event_writes(size_t count)
{
    uint64_t sum = 0;

    for (size_t i = 0; i < count; i++) {
        sum += event_write(&their_events[i % STEP_EVENTS], lent, MOST_EVENT_BYTES, 0).length;
    }
    return sum;
}

static uint64_t our_reads(size_t count)
{
    uint64_t sum = 0;
    size_t place = 0;

    while (count-- > 0) {
        struct louravela_number_reply found = louravela_number_read(trace, trace_length, place);

        place = found.next;
        sum += found.value;
    }
    return sum;
}

static uint64_t their_reads(size_t count)
{
    uint64_t sum = 0;
    size_t place = 0;

    while (count-- > 0) {
        struct number_read found = number_read(trace, trace_length, place);

        place = found.next;
        sum += found.value;
    }
    return sum;
}

static uint64_t our_writes(size_t count, uint64_t value)
{
    uint64_t sum = 0;

    while (count-- > 0) {
        sum += louravela_number_write(value, lent, MOST_EVENT_BYTES, 0).length;
    }
    return sum + lent[0];
}

static uint64_t their_writes(size_t count, uint64_t value)
{
    uint64_t sum = 0;

    while (count-- > 0) {
        sum += number_write(value, lent, MOST_EVENT_BYTES, 0).length;
    }
    return sum + lent[0];
}

static uint64_t our_writes_1(size_t count)
{
    return our_writes(count, 5);
}

static uint64_t their_writes_1(size_t count)
{
    return their_writes(count, 5);
}

static uint64_t our_writes_3(size_t count)
{
    return our_writes(count, 65535);
}

static uint64_t their_writes_3(size_t count)
{
    return their_writes(count, 65535);
}

static uint64_t our_writes_10(size_t count)
{
    return our_writes(count, UINT64_MAX);
}

static uint64_t their_writes_10(size_t count)
{
    return their_writes(count, UINT64_MAX);
}

/* ---- Workloads ---- */

const struct workload workloads[] = {
    {"run-ticks-L0", 0, prepare_ticks, our_run, their_run},
    {"run-ticks-L1-L5", 0, prepare_opens, our_run, their_run},
    {"run-mixed-short", 0, prepare_short, our_run, their_run},
    {"run-mixed-ten-byte", 0, prepare_long, our_run, their_run},
    {"step-mixed", 0, prepare_steps, our_steps, their_steps},
    {"step-ticks-L0", 0, prepare_tick_steps, our_steps, their_steps},
    {"event-read-mixed", 0, prepare_long, our_event_reads, their_event_reads},
    {"event-write-mixed", 0, prepare_steps, our_event_writes, their_event_writes},
    {"number-read-1", 0, prepare_numbers_1, our_reads, their_reads},
    {"number-read-3", 0, prepare_numbers_3, our_reads, their_reads},
    {"number-read-10", 0, prepare_numbers_10, our_reads, their_reads},
    {"number-write-1", 0, prepare_nothing, our_writes_1, their_writes_1},
    {"number-write-3", 0, prepare_nothing, our_writes_3, their_writes_3},
    {"number-write-10", 0, prepare_nothing, our_writes_10, their_writes_10},
    {"shelf-ticks-1", 1, prepare_shelf_ticks, our_shelf_run, their_shelf_run},
    {"shelf-ticks-2", 2, prepare_shelf_ticks, our_shelf_run, their_shelf_run},
    {"shelf-ticks-4", 4, prepare_shelf_ticks, our_shelf_run, their_shelf_run},
    {"shelf-ticks-8", 8, prepare_shelf_ticks, our_shelf_run, their_shelf_run},
    {"shelf-mixed-1", 1, prepare_shelf_mixed, our_shelf_run, their_shelf_run},
    {"shelf-mixed-2", 2, prepare_shelf_mixed, our_shelf_run, their_shelf_run},
    {"shelf-mixed-4", 4, prepare_shelf_mixed, our_shelf_run, their_shelf_run},
    {"shelf-mixed-8", 8, prepare_shelf_mixed, our_shelf_run, their_shelf_run},
    {"port-step-ticks-1", 1, prepare_port_ticks, our_port_steps, their_port_steps},
    {"port-step-ticks-8", 8, prepare_port_ticks, our_port_steps, their_port_steps},
    {"port-step-mixed-1", 1, prepare_port_mixed, our_port_steps, their_port_steps},
    {"port-step-mixed-8", 8, prepare_port_mixed, our_port_steps, their_port_steps}
};

const size_t workload_count = sizeof workloads / sizeof workloads[0];

void prepare(const struct workload *workload, size_t count)
{
    random_state = 1;
    trace_length = 0;
    begin_shelf(workload->phys);
    workload->prepare(count);
}
