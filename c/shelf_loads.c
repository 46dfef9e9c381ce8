/*
 * What speed measures of a shelf: runs over shelf traces, and single steps of a port. Whatever the number of phys, the
 * same events come in the same states, spread over the phys; so what differs is their number alone.
 */
#include "shelf_loads.h"

#include "inputs.h"
#include "louravela.h"
#include "shelf_run.h"
#include "workloads.h"

enum {
    BAYS = LOURAVELA_MOST_PHYS,
    NUMBERS = LOURAVELA_QUEUE_NUMBERS,
    MOST_BYTES = 8, /* of a shelf event, all of whose numbers are below 128 */
    STEP_EVENTS = 1024,
    /* So many Opens wait for one phy at most: eight times as many have room in the queue. */
    WAITING_EACH = LOURAVELA_MOST_WAITING / BAYS,
    /* As many resets leave a phy fresh for which these wait. */
    RESETS = WAITING_EACH + 1
};

static size_t phys;
static uint8_t trace[(size_t)MOST_EVENTS * MOST_BYTES];
static uint8_t lent[MOST_EVENTS];
static size_t trace_length;
static struct louravela_event part[MOST_EVENTS / BAYS];
static struct louravela_event our_events[STEP_EVENTS];
static struct shelf_event their_events[STEP_EVENTS];

/* ---- Inputs ---- */

void begin_shelf(size_t count)
{
    phys = count;
    trace_length = 0;
}

/* A Tx Open goes to the port, any other event to the phy. */
static uint64_t number_for(const struct louravela_event *event, size_t phy)
{
    return event->code == LOURAVELA_TX_OPEN ? LOURAVELA_THE_PORT : phy;
}

static void append(struct louravela_event event, size_t phy)
{
    trace_length += louravela_number_write(number_for(&event, phy), trace, sizeof trace, trace_length).length;
    trace_length += louravela_event_write(event, trace, sizeof trace, trace_length).length;
}

void prepare_shelf_ticks(size_t count)
{
    for (size_t i = 0; i < count; i++) {
        append(event_of(LOURAVELA_TICK), i % phys);
    }
}

/* An eighth of the events, as one phy alone hears them, fresh before and after. */
static void make_part(size_t count)
{
    struct bay bay = bay_fresh();
    uint64_t queue[QUEUE_NUMBERS] = {0};
    struct port port = {&bay, 1, queue, QUEUE_NUMBERS};

    for (size_t i = 0; i < count; i++) {
        struct louravela_event event = mixed_event(0, 128);
        struct shelf_event their;

        if (event.code == LOURAVELA_TX_OPEN && port_waiting(&port) == WAITING_EACH) {
            event = event_of(LOURAVELA_TICK);
        }
        part[i] = i + RESETS < count ? event : event_of(LOURAVELA_HARD_RESET);
        their.number = number_for(&part[i], 0);
        their.event = their_event(&part[i]);
        port_step(port, their);
    }
}

/* Each phy hears the part, an event in turn with the others, and fewer phys hear it more often. Whenever an event has
 * come to all, they are all in one state, so an Open finds what it found with one phy. */
void prepare_shelf_mixed(size_t count)
{
    size_t length = count / BAYS;

    make_part(length);
    for (size_t times = 0; times < BAYS / phys; times++) {
        for (size_t i = 0; i < length; i++) {
            for (size_t phy = 0; phy < phys; phy++) {
                append(part[i], phy);
            }
        }
    }
    prepare_shelf_ticks(count % BAYS);
}

/* The trace as events one by one. */
static void prepare_steps(void)
{
    size_t place = 0;

    for (size_t i = 0; i < STEP_EVENTS; i++) {
        struct louravela_number_reply number = louravela_number_read(trace, trace_length, place);
        struct louravela_event_reply found = louravela_event_read(trace, trace_length, number.next);

        our_events[i] = found.event;
        their_events[i].number = number.value;
        their_events[i].event = their_event(&found.event);
        place = found.next;
    }
}

void prepare_port_ticks(size_t count)
{
    (void)count;
    prepare_shelf_ticks(STEP_EVENTS);
    prepare_steps();
}

void prepare_port_mixed(size_t count)
{
    (void)count;
    prepare_shelf_mixed(STEP_EVENTS);
    prepare_steps();
}

/* ---- Work ---- */

static void our_fresh_row(struct louravela_bay *row)
{
    for (size_t i = 0; i < phys; i++) {
        row[i] = louravela_bay_fresh();
    }
}

static void their_fresh_row(struct bay *row)
{
    for (size_t i = 0; i < phys; i++) {
        row[i] = bay_fresh();
    }
}

uint64_t our_shelf_run(size_t count)
{
    struct louravela_bay row[BAYS];
    uint64_t queue[NUMBERS] = {0};
    struct louravela_port_run_reply ran;

    our_fresh_row(row);
    ran = louravela_port_run(row, phys, queue, NUMBERS, trace, trace_length, count, lent, count);
    return ran.count + lent[count - 1] + row[phys - 1].phy.link + queue[0];
}

uint64_t their_shelf_run(size_t count)
{
    struct bay row[BAYS];
    uint64_t queue[NUMBERS] = {0};
    struct port port = {row, phys, queue, NUMBERS};
    struct run_trace bytes = {trace, trace_length};
    struct run_buffer buffer = {lent, count};
    struct shelf_run_result ran;

    their_fresh_row(row);
    ran = shelf_run(port, bytes, count, buffer);
    return ran.count + lent[count - 1] + row[phys - 1].phy.link + queue[0];
}

uint64_t our_port_steps(size_t count)
{
    struct louravela_bay row[BAYS];
    uint64_t queue[NUMBERS] = {0};
    uint64_t sum = 0;

    our_fresh_row(row);
    for (size_t i = 0; i < count; i++) {
        size_t at = i % STEP_EVENTS;
        struct louravela_port_stepped step =
            louravela_port_step(row, phys, queue, NUMBERS, their_events[at].number, our_events[at]);

        sum += step.reports.answer.code + step.reports.refusal + step.handed;
    }
    return sum;
}

uint64_t their_port_steps(size_t count)
{
    struct bay row[BAYS];
    uint64_t queue[NUMBERS] = {0};
    struct port port = {row, phys, queue, NUMBERS};
    uint64_t sum = 0;

    their_fresh_row(row);
    for (size_t i = 0; i < count; i++) {
        struct port_result step = port_step(port, their_events[i % STEP_EVENTS]);

        sum += step.answer.code + step.refusal + step.handed;
    }
    return sum;
}
