#include "cases.h"

#include "bay_samples.h"
#include "number.h"
#include "shelf_chain.h"
#include "shelf_samples.h"
#include "stamp_samples.h"

#include <string.h>

enum {
    TOUR = SHELF_TOUR,
    RANDOM_CHAINS = 4,
    RANDOM_RUNS = 3,
    RANDOM_EVENTS = 24
};

static void add_tour(struct byte_string *string, size_t from, size_t to, size_t groups)
{
    for (size_t i = from; i < to; i++) {
        add_shelf_event(string, shelf_tour[i], groups);
    }
}

static struct byte_string tour_string(size_t from, size_t to)
{
    struct byte_string string = {.length = 0};

    add_tour(&string, from, to, SHORTEST);
    return string;
}

/* ---- Budgets and buffers ---- */

struct lent {
    uint64_t budget;
    size_t room;
};

/* They take nothing, so the last begins where the first did. No buffer is as long as the last budgets; the low 32 bits
 * of one of them are 0. */
static void take_nothing_of_tour(struct case_file *file)
{
    static const struct lent lent[] = {
        {1, 0}, {TOUR, TOUR - 1}, {0, 0}, {PAST_32_BITS, TOUR}, {UINT64_MAX, TOUR}, {0, 2}, {TOUR, TOUR + 2}
    };
    enum { RUNS = sizeof lent / sizeof lent[0] };
    const struct byte_string string = tour_string(0, TOUR);
    const struct port_box start = fresh_box(2);
    struct shelf_chain chain = start_shelf_chain(file, &start, RUNS);

    for (size_t i = 0; i < RUNS; i++) {
        shelf_chain_string(&chain, lent[i].budget, lent[i].room, &string);
    }
}

static void run_tour(struct case_file *file)
{
    static const struct lent lent[] = {{1, 1}, {9, 9}, {10, 12}, {TOUR - 1, TOUR}, {TOUR, TOUR}, {TOUR + 1, TOUR + 1}};
    const struct byte_string string = tour_string(0, TOUR);
    const struct port_box start = fresh_box(2);

    for (size_t i = 0; i < sizeof lent / sizeof lent[0]; i++) {
        single_shelf_run(file, &start, lent[i].budget, lent[i].room, &string);
    }
}

/* Every byte is the same as without padding. */
static void run_padded_tours(struct case_file *file)
{
    static const size_t groups[] = {2, NUMBER_MOST_BYTES};
    const struct port_box start = fresh_box(2);

    for (size_t i = 0; i < sizeof groups / sizeof groups[0]; i++) {
        struct byte_string string = {.length = 0};

        add_tour(&string, 0, TOUR, groups[i]);
        single_shelf_run(file, &start, TOUR, TOUR, &string);
    }
}

/* Each run unsets the bases again, so a stamp does no more than set one. */
static void one_event_at_a_time(struct case_file *file)
{
    const struct port_box start = fresh_box(2);
    struct shelf_chain chain = start_shelf_chain(file, &start, TOUR);

    for (size_t i = 0; i < TOUR; i++) {
        size_t behind = i + 2 < TOUR ? i + 2 : TOUR;
        const struct byte_string string = tour_string(i, behind);

        shelf_chain_string(&chain, 1, 1, &string);
    }
}

/* ---- Bases that are set before the run ---- */

/* Every bay has one, and the phys are not free. */
static struct port_box box_with_bases(size_t count)
{
    struct port_box box = connected_box(count);

    for (size_t i = 0; i < count; i++) {
        box.bays[i] = bay_with_base(box.bays[i].phy, 1000 * i);
    }
    box_add_opens(&box, 2);
    return box;
}

/* A buffer that is too short leaves them, whatever the trace has. */
static void keep_bases(struct case_file *file, size_t count)
{
    static const struct byte_string stamp = {3, {0, EVENT_TIME_STAMP, 9}};
    static const struct byte_string fault = {2, {0, 0}};
    const struct port_box start = box_with_bases(count);
    struct shelf_chain chain = start_shelf_chain(file, &start, 3);

    shelf_chain_string(&chain, 1, 0, &stamp);
    shelf_chain_string(&chain, 2, 1, &fault);
    shelf_chain_string(&chain, 1, 2, &stamp);
}

/* Taking nothing at the end, at the budget, at a fault. */
static void unset_bases(struct case_file *file, size_t count)
{
    static const struct byte_string empty = {.length = 0};
    static const struct byte_string stamp = {3, {0, EVENT_TIME_STAMP, 9}};
    static const struct byte_string fault = {2, {0, 0}};
    const struct port_box start = box_with_bases(count);

    single_shelf_run(file, &start, 0, 0, &empty);
    single_shelf_run(file, &start, 0, 1, &stamp);
    single_shelf_run(file, &start, 1, 1, &fault);
}

/* ---- Ports that are not valid ---- */

/* First with a buffer too short, which comes second to the state; then with nothing to do. */
static void judge_port(struct case_file *file, const struct port_box *start)
{
    static const struct byte_string empty = {.length = 0};
    const struct byte_string string = tour_string(0, 2);
    struct shelf_chain chain = start_shelf_chain(file, start, 3);

    shelf_chain_string(&chain, 2, 1, &string);
    shelf_chain_string(&chain, 2, 3, &string);
    shelf_chain_string(&chain, 0, 0, &empty);
}

static void judge_ports(struct case_file *file)
{
    struct port_box none = fresh_box(0);
    struct port_box nine = fresh_box(BOX_BAYS);
    struct port_box bad_phy = box_with_bases(2);
    struct port_box bad_clock = box_with_bases(8);
    struct port_box beside_free = box_with_bases(2);
    struct port_box bad_open = box_with_bases(1);
    struct port_box hole = box_with_bases(1);
    struct port_box long_queue = fresh_box(1);
    struct port_box short_queue = fresh_box(1);
    struct port_box no_queue = fresh_box(1);

    bad_phy.bays[1].phy.accept = 2;
    bad_clock.bays[7].base = PAST_32_BITS;
    beside_free.bays[1] = bay_with_base(phy_fresh(), 5);
    bad_open.queue[2] = RATE_1_5_GBPS - 1;
    memset(hole.queue, 0, PHY_ARGUMENTS * sizeof hole.queue[0]);
    long_queue.length = QUEUE_NUMBERS + 1;
    short_queue.length = QUEUE_NUMBERS - 1;
    no_queue.length = 0;
    judge_port(file, &none);
    judge_port(file, &nine);
    judge_port(file, &bad_phy);
    judge_port(file, &bad_clock);
    judge_port(file, &beside_free);
    judge_port(file, &bad_open);
    judge_port(file, &hole);
    judge_port(file, &long_queue);
    judge_port(file, &short_queue);
    judge_port(file, &no_queue);
}

/* ---- Faults ---- */

/* Behind the tour's first events, the budget once at the fault and once behind it. */
static void run_into(struct shelf_chain *chain, size_t before, const struct byte_string *wrong)
{
    struct byte_string string = tour_string(0, before);

    add_string(&string, wrong);
    shelf_chain_string(chain, before, before, &string);
    shelf_chain_string(chain, before + 1, before + 2, &string);
}

/* Any number is read before an event, so nothing is out of its range there. */
static void run_into_number_faults(struct case_file *file)
{
    const struct port_box start = fresh_box(2);
    struct shelf_chain chain = start_shelf_chain(file, &start, 2 * (NUMBER_FAULTS - FAULT_TOO_LARGE));

    for (enum number_fault fault = FAULT_TOO_LARGE; fault < NUMBER_FAULTS; fault++) {
        struct byte_string wrong = {.length = 0};

        add_fault(&wrong, fault);
        if (fault < FAULT_CUT) {
            add_tour(&wrong, 0, 1, SHORTEST);
        }
        run_into(&chain, (size_t)fault % 3, &wrong);
    }
}

static void run_into_faults(struct case_file *file, const struct phy_event *event)
{
    const struct port_box start = fresh_box(1);
    struct shelf_chain chain = start_shelf_chain(file, &start, event_numbers(event) * NUMBER_FAULTS);

    for (size_t which = 0; which < event_numbers(event); which++) {
        for (enum number_fault fault = FAULT_OUT_OF_RANGE; fault < NUMBER_FAULTS; fault++) {
            struct byte_string string = {.length = 0};

            add_shelf_event(&string, to_phy(3, plain_event(EVENT_TICK)), SHORTEST);
            add_padded(&string, which % 2 == 0 ? 0 : THE_PORT_ITSELF, 1 + (size_t)fault);
            add_event_numbers(&string, event, 0, which);
            add_fault_in(&string, event, which, fault);
            shelf_chain_string(&chain, 2, 2, &string);
        }
    }
}

/* Behind a phy's number the end is a cut, behind an event it is the end. */
static void cut_everywhere(struct case_file *file)
{
    struct byte_string string = tour_string(4, 9);
    const struct port_box start = fresh_box(2);
    size_t whole = string.length;
    struct shelf_chain chain = start_shelf_chain(file, &start, whole + 1);

    for (string.length = 0; string.length <= whole; string.length++) {
        shelf_chain_string(&chain, 5, 5, &string);
    }
}

/* ---- Long traces: pieces so and so often ---- */

/* The Open waits for its answer 2,000 ticks at each of the phys, and the queue is full before the first is answered. */
static void run_long(struct case_file *file, size_t count)
{
    const struct port_box start = fresh_box(count);
    struct shelf_chain chain = start_shelf_chain(file, &start, 2);
    struct byte_string opens = {.length = 0};
    struct pieces trace;

    add_shelf_event(&opens, to_port(numbered_open(1)), SHORTEST);
    pieces_clear(&trace);
    pieces_add_string(&trace, QUEUE_MOST_OPENS + count + 2, &opens);
    for (size_t i = 0; i < count; i++) {
        struct byte_string ticks = {.length = 0};

        add_shelf_event(&ticks, to_phy(i, plain_event(EVENT_TICK)), SHORTEST);
        pieces_add_string(&trace, 2001, &ticks);
    }
    shelf_chain_run(&chain, 5000, 5000, &trace);
    shelf_chain_run(&chain, SHELF_LENT_ROOM, SHELF_LENT_ROOM, &trace);
}

/* ---- Random runs ---- */

/* In the shortest form or padded, and now and then harmed. */
static void random_trace(struct case_file *file, struct byte_string *string, struct port_box now)
{
    for (size_t i = 0; i < RANDOM_EVENTS; i++) {
        struct shelf_event event = random_shelf_event(file, &now, 4);
        size_t groups = case_random_one_in(file, 6) ? NUMBER_MOST_BYTES : SHORTEST;

        add_shelf_event(string, event, groups);
        port_step(box_port(&now), event);
    }
    if (case_random_one_in(file, 4)) {
        random_damage(file, string);
    }
}

static void random_chain(struct case_file *file, size_t count)
{
    const struct port_box start = fresh_box(count);
    struct shelf_chain chain = start_shelf_chain(file, &start, RANDOM_RUNS);

    for (int i = 0; i < RANDOM_RUNS; i++) {
        struct byte_string string = {.length = 0};
        uint64_t less = case_random_below(file, 4);

        random_trace(file, &string, chain.now);
        shelf_chain_string(&chain, RANDOM_EVENTS - less, RANDOM_EVENTS - (i == 1 ? 1 : 0), &string);
    }
}

void make_shelf_run_cases(struct case_file *file)
{
    static const size_t counts[RANDOM_CHAINS] = {1, 2, 7, 8};
    const struct phy_event tx_open = sample_event(EVENT_TX_OPEN);
    const struct phy_event stamp = stamp_at(5);

    take_nothing_of_tour(file);
    run_tour(file);
    run_padded_tours(file);
    one_event_at_a_time(file);
    keep_bases(file, 8);
    unset_bases(file, 2);
    judge_ports(file);
    run_into_number_faults(file);
    run_into_faults(file, &tx_open);
    run_into_faults(file, &stamp);
    cut_everywhere(file);
    run_long(file, 1);
    run_long(file, 3);
    for (size_t i = 0; i < RANDOM_CHAINS; i++) {
        random_chain(file, counts[i]);
    }
}
