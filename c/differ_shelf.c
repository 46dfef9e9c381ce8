/*
 * Walks of a shelf, event by event, and runs over shelf traces. The row and the queue are lent, so after each call all
 * of both is compared, with what stands behind them.
 */
#include <inttypes.h>
#include <stdio.h>
#include <string.h>

#include "differ.h"
#include "inputs.h"
#include "shelf.h"
#include "shelf_run.h"

enum {
    BAYS = LOURAVELA_MOST_PHYS,
    NUMBERS = LOURAVELA_QUEUE_NUMBERS,
    WALK_EVENTS = 1024,
    MOST_PHASE = 128,
    SHELF_RUNS = 8,
    TRACE_EVENTS = 40,
    MOST_BUFFER = 2 * TRACE_EVENTS
};

/* One port twice: each side has its own row and queue, and changes them by its own steps. */
struct shelf {
    struct louravela_bay our_row[BAYS + 1];
    struct bay their_row[BAYS + 1];
    uint64_t our_queue[NUMBERS + 1];
    uint64_t their_queue[NUMBERS + 1];
    size_t phys;    /* so many of the row are lent */
    size_t numbers; /* and so many of the queue */
};

static unsigned long long compared_shelf_events;
static unsigned long long from_invalid;
static unsigned long long handed_out;
static unsigned long long queue_full;
static unsigned long long emptied;
static unsigned long long compared_shelf_runs;
static unsigned long long events_in_runs;

/* ---- Shelves ---- */

static void put_bay(struct shelf *shelf, size_t place, struct louravela_bay bay)
{
    struct bay theirs = {their_phy(&bay.phy), bay.base, bay.base_set};

    shelf->our_row[place] = bay;
    shelf->their_row[place] = theirs;
}

static struct shelf fresh_shelf(size_t phys)
{
    struct shelf shelf = {.phys = phys, .numbers = NUMBERS};

    for (size_t i = 0; i <= BAYS; i++) {
        put_bay(&shelf, i, louravela_bay_fresh());
    }
    return shelf;
}

static void same_shelf(const struct shelf *shelf)
{
    for (size_t i = 0; i <= BAYS; i++) {
        same_bay(&shelf->our_row[i], &shelf->their_row[i]);
    }
    for (size_t i = 0; i <= NUMBERS; i++) {
        same("a number of the queue", shelf->our_queue[i], shelf->their_queue[i]);
    }
}

static struct port their_port(struct shelf *shelf)
{
    struct port port = {shelf->their_row, shelf->phys, shelf->their_queue, shelf->numbers};

    return port;
}

/* ---- Events ---- */

static void same_port_report(const char *what, struct louravela_report ours, struct bay_report theirs)
{
    same(what, ours.code, theirs.code);
    same("the tick of a port's report", ours.tick, theirs.tick);
}

/* What the event did; its caller counts hand-outs and refusals. */
static struct louravela_port_stepped shelf_both(struct shelf *shelf, uint64_t number, struct louravela_event event)
{
    struct shelf_event their = {number, their_event(&event)};
    struct port_result theirs = port_step(their_port(shelf), their);
    struct louravela_port_stepped ours =
        louravela_port_step(shelf->our_row, shelf->phys, shelf->our_queue, shelf->numbers, number, event);

    compared_shelf_events++;
    same("a port's refusal", ours.reports.refusal, theirs.refusal);
    same_port_report("a port's answer", ours.reports.answer, theirs.answer);
    same_port_report("a port's notice", ours.reports.notice, theirs.notice);
    same_port_report("a port's second notice", ours.reports.second_notice, theirs.second_notice);
    same_port_report("what a phy of a port sends", ours.reports.sent, theirs.sent);
    same_open(&ours.reports.answered, &theirs.answered);
    same("the phy that received an Open", ours.handed, theirs.handed);
    same("what it then sent", ours.handed_sent, theirs.handed_sent);
    same_shelf(shelf);
    return ours;
}

/* Most numbers are those of phys; of the rest some are just past them, and some the port's. */
static uint64_t random_phy(const struct shelf *shelf)
{
    if (!one_in(16)) {
        return random_below(shelf->phys);
    }
    if (one_in(3)) {
        return random_any();
    }
    return one_in(2) ? shelf->phys : LOURAVELA_THE_PORT;
}

/* Of events for phys some are stamps; of those for the port most are Opens. */
static struct louravela_event next_event(const struct shelf *shelf, uint64_t number)
{
    if (number == LOURAVELA_THE_PORT && !one_in(16)) {
        return known_event_of(LOURAVELA_TX_OPEN);
    }
    if (number < shelf->phys && one_in(12)) {
        return next_stamp(&shelf->our_row[number]);
    }
    return random_event();
}

/* ---- Invalid shelves ---- */

static void spoil_queue(struct shelf *shelf)
{
    size_t at = (size_t)random_below(NUMBERS);
    uint64_t number = one_in(2) ? 1 + random_below(9) : random_any();

    shelf->our_queue[at] = shelf->their_queue[at] = number;
}

/* A row or a queue of another length, or a record or a number that is wrong, or just another one. */
static void spoil_shelf(struct shelf *shelf)
{
    size_t place = (size_t)random_below(shelf->phys);

    switch (random_below(5)) {
    case 0:
        shelf->phys = (size_t)random_below(BAYS + 2);
        break;
    case 1:
        shelf->numbers = one_in(2) ? NUMBERS - 1 + 2 * (size_t)random_below(2) : (size_t)random_below(NUMBERS + 2);
        break;
    case 2:
        put_bay(shelf, place, damaged_bay(shelf->our_row[place]));
        break;
    case 3:
        put_bay(shelf, place, louravela_bay_fresh()); /* beside Opens that wait, perhaps */
        break;
    default:
        spoil_queue(shelf);
        break;
    }
}

/* A copy is spoiled, so the walk goes on from the shelf as it was. */
static void step_invalid(const struct shelf *shelf, uint64_t number, struct louravela_event event)
{
    struct shelf spoiled = *shelf;

    spoil_shelf(&spoiled);
    from_invalid += shelf_both(&spoiled, number, event).reports.refusal == LOURAVELA_BAD_STATE;
}

/* ---- Runs ---- */

static uint8_t our_buffer[MOST_BUFFER];
static uint8_t their_buffer[MOST_BUFFER];

static size_t write_shelf_trace(const struct shelf *shelf)
{
    size_t length = 0;

    for (int i = 0; i < TRACE_EVENTS; i++) {
        uint64_t number = one_in(3) ? LOURAVELA_THE_PORT : random_phy(shelf);
        struct louravela_event event = number == LOURAVELA_THE_PORT ? known_event_of(LOURAVELA_TX_OPEN) : known_event();
        struct shelf_event their = {number, their_event(&event)};

        length += shelf_write(&their, trace, MOST_TRACE, length).length;
    }
    return length;
}

static void same_shelf_ran(const struct louravela_port_run_reply *ours, const struct shelf_run_result *theirs)
{
    same("a shelf run's refusal", ours->refusal, theirs->refusal);
    same("a shelf run's count", ours->count, theirs->count);
    same("how a shelf run stopped", ours->how, theirs->stop);
    same("a shelf run's fault", ours->fault, theirs->fault);
    same("a shelf run's place", ours->place, theirs->place);
}

static void run_shelf_both(struct shelf shelf, struct run_trace bytes, size_t budget, size_t room)
{
    struct run_buffer lent = {their_buffer, room};
    struct louravela_port_run_reply ours;
    struct shelf_run_result theirs;

    fill_both(our_buffer, their_buffer, MOST_BUFFER);
    ours = louravela_port_run(shelf.our_row, shelf.phys, shelf.our_queue, shelf.numbers, bytes.bytes, bytes.length,
                              budget, our_buffer, room);
    theirs = shelf_run(their_port(&shelf), bytes, budget, lent);
    compared_shelf_runs++;
    events_in_runs += ours.count;
    same_shelf_ran(&ours, &theirs);
    same_bytes("a buffer after a shelf run", our_buffer, their_buffer, MOST_BUFFER);
    same_shelf(&shelf);
}

/* From a shelf as it is in a walk, its queue perhaps full, from a fresh one, or from one that is no shelf. */
static void walk_shelf_traces(const struct shelf *shelf)
{
    size_t length = write_shelf_trace(shelf);

    length = one_in(2) ? padded_trace(length) : length;
    length = one_in(2) ? damaged_trace(length) : length;
    for (int i = 0; i < SHELF_RUNS; i++) {
        size_t budget = one_in(16) ? 0 : (size_t)random_below(TRACE_EVENTS + 8);
        size_t room = (size_t)(one_in(4) ? random_below(budget + 1) : budget + random_below(MOST_BUFFER - budget));
        struct shelf from = one_in(4) ? fresh_shelf(shelf->phys) : *shelf;
        struct run_trace bytes = {trace, one_in(16) ? 0 : length};

        if (one_in(4)) {
            spoil_shelf(&from);
        }
        run_shelf_both(from, bytes, one_in(16) ? (size_t)random_any() : budget, room);
    }
}

/* ---- Walks ---- */

/* The oldest has a rate, and no rate is 0. */
static bool one_waits(const struct shelf *shelf)
{
    return shelf->our_queue[2] != 0;
}

static void take_one(struct shelf *shelf, uint64_t number, struct louravela_event event)
{
    bool waited = one_waits(shelf);
    struct louravela_port_stepped step = shelf_both(shelf, number, event);

    handed_out += step.handed != LOURAVELA_HANDED_TO_NONE;
    queue_full += step.reports.refusal == LOURAVELA_QUEUE_FULL;
    emptied += waited && !one_waits(shelf);
}

/* By phases the port is given more Opens than its phys have done with, or fewer, so that the queue fills and drains. */
void walk_shelf(void)
{
    struct shelf shelf = fresh_shelf(1 + (size_t)random_below(BAYS));
    uint64_t left = 0;
    uint64_t chances = 1;

    for (int i = 0; i < WALK_EVENTS; i++, left--) {
        uint64_t number;
        struct louravela_event event;

        if (left == 0) {
            left = 1 + random_below(MOST_PHASE);
            chances = one_in(2) ? 2 : 32;
            walk_shelf_traces(&shelf);
        }
        number = one_in(chances) ? LOURAVELA_THE_PORT : random_phy(&shelf);
        event = next_event(&shelf, number);
        take_one(&shelf, number, event);
        if (one_in(8)) {
            step_invalid(&shelf, number, event);
        }
    }
}

void print_shelves(void)
{
    printf("differ: %llu events of shelves of 1 to 8 phys, row and queue compared whole after each, with %llu Opens "
           "handed out, %llu refused by a full queue, %llu queues emptied, %llu events at invalid shelves; %llu runs "
           "over shelf traces, with %llu events\n",
           compared_shelf_events, handed_out, queue_full, emptied, from_invalid, compared_shelf_runs, events_in_runs);
}
