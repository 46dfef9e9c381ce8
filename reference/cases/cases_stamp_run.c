#include "cases.h"

#include "number.h"
#include "run_chain.h"
#include "stamp_samples.h"

enum {
    LONG_TRACE = 65536,
    LONG_RUN_CUT_SHORT = 5003,
    CYCLE_EVENTS = 10,
    SEEDED_CHAINS = 50,
    MOST_CHAINED = 5,
    MOST_EVENTS = 40,
    PADDED_ONE_IN = 8,
    /* In ticks: that of a sample record's timer. */
    SAMPLE_TIMER = 500
};

static void pieces_of_string(struct pieces *trace, const struct byte_string *string)
{
    pieces_clear(trace);
    pieces_add_string(trace, 1, string);
}

static void run_string(
    struct case_file *file, struct phy start, uint64_t budget, size_t room, const struct byte_string *string)
{
    struct pieces trace;

    pieces_of_string(&trace, string);
    single_run(file, start, budget, room, &trace);
}

static void add_tour(struct byte_string *string, size_t from, size_t to, size_t groups)
{
    for (size_t i = from; i < to; i++) {
        add_padded_event(string, &stamped_tour[i], groups);
    }
}

/* ---- Budgets and buffers ---- */

/* Just before and just after each of the stamps. */
static void run_tour_to_every_budget(struct case_file *file)
{
    struct byte_string string = {.length = 0};

    add_tour(&string, 0, STAMPED_TOUR, SHORTEST);
    for (uint64_t budget = 0; budget <= STAMPED_TOUR + 1; budget++) {
        run_string(file, phy_fresh(), budget, budget, &string);
    }
    run_string(file, phy_fresh(), STAMPED_TOUR, STAMPED_TOUR - 1, &string);
    run_string(file, phy_fresh(), STAMPED_TOUR, STAMPED_TOUR + 3, &string);
}

/* Every answer comes at the same event as without padding. */
static void run_padded_tours(struct case_file *file)
{
    for (size_t groups = 2; groups <= NUMBER_MOST_BYTES; groups++) {
        struct byte_string string = {.length = 0};

        add_tour(&string, 0, STAMPED_TOUR, groups);
        run_string(file, phy_fresh(), STAMPED_TOUR, STAMPED_TOUR, &string);
    }
}

static void try_small_edges(struct case_file *file, struct phy start, const struct byte_string *string)
{
    static const uint64_t budgets[] = {0, 1, 2, UINT64_MAX};

    for (size_t i = 0; i < sizeof budgets / sizeof budgets[0]; i++) {
        for (size_t room = 0; room <= 3; room++) {
            run_string(file, start, budgets[i], room, string);
        }
    }
}

/* Good and bad states, traces, budgets and buffers, each with each; a run that is refused gives back no base. */
static void try_all_small_edges(struct case_file *file)
{
    static const struct byte_string traces[] = {
        {2, {EVENT_TIME_STAMP, 5}},
        {4, {EVENT_TIME_STAMP, 5, EVENT_TIME_STAMP, 4}},
        {3, {EVENT_TIME_STAMP, 5, EVENT_TIME_STAMP}},
        {4, {EVENT_TIME_STAMP, 5, 0, EVENT_TICK}}
    };
    struct phy starts[] = {
        phy_fresh(), sample_record(LINK_BREAK, PORT_REQ_WAIT, 0), sample_record(LINK_IDLE, PORT_CONNECTED, 0),
        phy_fresh()
    };

    starts[3].accept = UINT64_MAX;
    for (size_t i = 0; i < sizeof traces / sizeof traces[0]; i++) {
        for (size_t k = 0; k < sizeof starts / sizeof starts[0]; k++) {
            try_small_edges(file, starts[k], &traces[i]);
        }
    }
}

/* ---- Faults ---- */

static void cut_everywhere(struct case_file *file)
{
    struct byte_string string = {.length = 0};

    add_tour(&string, 0, STAMPED_TOUR, SHORTEST);

    size_t whole = string.length;

    for (string.length = 0; string.length < whole; string.length++) {
        run_string(file, phy_fresh(), STAMPED_TOUR, STAMPED_TOUR, &string);
    }
}

/* In a number of a stamp; the budget ends at it, and behind it. */
static void run_into_fault(struct case_file *file, size_t before, size_t which, enum number_fault fault)
{
    const struct phy_event stamp = stamp_at(before);
    struct byte_string string = {.length = 0};

    add_tour(&string, 0, before, SHORTEST);
    add_event_numbers(&string, &stamp, 0, which);
    add_fault_in(&string, &stamp, which, fault);
    if (fault < FAULT_CUT) {
        add_event_numbers(&string, &stamp, which + 1, event_numbers(&stamp));
        add_tour(&string, before, STAMPED_TOUR, SHORTEST);
    }
    run_string(file, phy_fresh(), before, before, &string);
    run_string(file, phy_fresh(), before + 1, before + 1, &string);
}

static void run_into_faults(struct case_file *file)
{
    for (size_t before = 0; before <= STAMPED_TOUR; before++) {
        for (enum number_fault fault = FAULT_OUT_OF_RANGE; fault < NUMBER_FAULTS; fault++) {
            run_into_fault(file, before, (before + fault) % 2, fault);
        }
    }
}

static void run_into_bad_counters(struct case_file *file)
{
    for (size_t i = 0; i < bad_counter_count; i++) {
        struct byte_string string = {.length = 0};
        struct phy_event stamp = stamp_at(bad_counters[i]);

        add_tour(&string, 0, 3, SHORTEST);
        add_event(&string, &stamp);
        run_string(file, phy_fresh(), 5, 5, &string);
    }
}

/* ---- Bases ---- */

/* Each run begins without a base, so the first stamp of each has no tick. */
static void chain_tour(struct case_file *file, size_t events)
{
    struct chain chain = start_chain(file, phy_fresh(), STAMPED_TOUR / events);

    for (size_t i = 0; i < STAMPED_TOUR; i += events) {
        struct byte_string string = {.length = 0};
        struct pieces trace;

        add_tour(&string, i, STAMPED_TOUR, SHORTEST);
        pieces_of_string(&trace, &string);
        chain_run(&chain, events, events, &trace);
    }
}

static void run_first_stamps(struct case_file *file)
{
    for (size_t i = 0; i < counter_count; i++) {
        struct phy_event open = sample_event(EVENT_TX_OPEN);
        struct phy_event first = stamp_at(counters[i]);
        struct phy_event second = stamp_behind(counters[i], 2 * PHY_TIMER_START);
        struct byte_string string = {.length = 0};

        add_event(&string, &open);
        add_event(&string, &first);
        add_event(&string, &second);
        run_string(file, phy_fresh(), 2, 3, &string);
        run_string(file, phy_fresh(), 3, 3, &string);
    }
}

/* ---- States ---- */

static void run_gap(struct case_file *file, struct phy start, uint64_t base, uint64_t ticks)
{
    struct phy_event first = stamp_at(base);
    struct phy_event second = stamp_behind(base, ticks);
    struct byte_string string = {.length = 0};

    add_event(&string, &first);
    add_event(&string, &second);
    run_string(file, start, 2, 2, &string);
}

static void run_gaps(struct case_file *file, struct phy start)
{
    static const uint64_t gaps[] = {
        0, 1, SAMPLE_TIMER - 1, SAMPLE_TIMER, SAMPLE_TIMER + PHY_TIMER_START, BAY_MOST_COUNTER
    };

    for (size_t i = 0; i < sizeof gaps / sizeof gaps[0]; i++) {
        run_gap(file, start, BAY_MOST_COUNTER - SAMPLE_TIMER, gaps[i]);
    }
}

static void start_from_pair(struct case_file *file, uint64_t link, uint64_t port)
{
    for (size_t variant = 0; variant < variant_count(link, port); variant++) {
        struct phy phy = sample_record(link, port, variant);

        if (phy_is_valid(&phy)) {
            run_gaps(file, phy);
            phy.accept = 1;
            run_gaps(file, phy);
        }
    }
}

static void start_from_every_pair(struct case_file *file)
{
    for (uint64_t link = LINK_IDLE; link <= LINK_BREAK; link++) {
        for (uint64_t port = PORT_IDLE; port <= PORT_WAIT_FOR_CLOSE; port++) {
            start_from_pair(file, link, port);
        }
    }
}

/* ---- Long walks ---- */

/* In each but the second the first stamp goes round to where the counter was, past all that could still happen. */
static const struct phy_event cycles[][CYCLE_EVENTS] = {
    {{EVENT_TIME_STAMP, {1000}}, {EVENT_TX_OPEN, {7, 1, 9, 300, 2, 0}}, {EVENT_TIME_STAMP, {3000}}},
    {{EVENT_TIME_STAMP, {PAST_32_BITS - 1}}},
    {{EVENT_TIME_STAMP, {PAST_32_BITS - 700}}, {EVENT_TX_OPEN, {7, 1, 9, 300, 2, 0}}, {EVENT_OPEN_ACCEPT, {0}},
     {EVENT_CLOSE_CONNECTION, {0}}, {EVENT_TICK, {0}}, {EVENT_TIME_STAMP, {1300}}},
    /* AIPs keep the request waiting, so its wait comes to the second slope. */
    {{EVENT_TIME_STAMP, {0}}, {EVENT_TX_OPEN, {7, 2, 8, 0, 0, 32000}}, {EVENT_TIME_STAMP, {999}}, {EVENT_AIP, {0}},
     {EVENT_TIME_STAMP, {1998}}, {EVENT_AIP, {0}}, {EVENT_TIME_STAMP, {2997}}, {EVENT_OPEN_RECEIVED, {7, 1}},
     {EVENT_TIME_STAMP, {2998}}}
};
enum { CYCLES = sizeof cycles / sizeof cycles[0] };

/* As often as it goes into the longest trace, then ticks up to its last byte. */
static void repeat_cycle(struct pieces *trace, const struct phy_event events[CYCLE_EVENTS])
{
    struct byte_string string = {.length = 0};

    for (size_t i = 0; i < CYCLE_EVENTS && events[i].code != 0; i++) {
        add_event(&string, &events[i]);
    }
    pieces_clear(trace);
    pieces_add_string(trace, LONG_TRACE / string.length, &string);
    pieces_add_event(trace, LONG_TRACE - trace->length, plain_event(EVENT_TICK));
}

/* The first run of a cycle breaks off in the middle of it, so the next starts in another state. */
static void walk_long(struct case_file *file)
{
    struct chain chain = start_chain(file, phy_fresh(), 2 * CYCLES);

    for (size_t i = 0; i < CYCLES; i++) {
        struct pieces trace;

        repeat_cycle(&trace, cycles[i]);
        chain_run(&chain, LONG_RUN_CUT_SHORT, LONG_RUN_CUT_SHORT, &trace);
        chain_run(&chain, LENT_ROOM, LENT_ROOM, &trace);
    }
}

/* ---- Seeded chains ---- */

/* now: where the trace so far leads if all of it is taken. */
struct walk {
    struct bay now;
    struct byte_string string;
};

static void add_random_event(struct case_file *file, struct walk *walk)
{
    struct phy_event event = random_bay_event(file, &walk->now);
    size_t most = case_random_one_in(file, PADDED_ONE_IN) ? NUMBER_MOST_BYTES : SHORTEST;

    add_randomly_padded_event(file, &walk->string, &event, most);
    walk->now = bay_step(walk->now, event).bay;
}

static void add_random_fault(struct case_file *file, struct walk *walk)
{
    const struct phy_event stamp = stamp_at(0);
    size_t which = (size_t)case_random_below(file, event_numbers(&stamp));

    add_event_numbers(&walk->string, &stamp, 0, which);
    add_fault_in(&walk->string, &stamp, which, (enum number_fault)case_random_below(file, NUMBER_FAULTS));
}

static void add_random_run(struct case_file *file, struct chain *chain)
{
    struct walk walk = {.now = {.phy = chain->now}};
    uint64_t events = 1 + case_random_below(file, MOST_EVENTS);
    uint64_t fault_at = case_random_one_in(file, 4) ? case_random_below(file, events) : events;
    struct pieces trace;

    for (uint64_t i = 0; i < events; i++) {
        if (i == fault_at) {
            add_random_fault(file, &walk);
        }
        add_random_event(file, &walk);
    }

    uint64_t budget = case_random_one_in(file, 3) ? case_random_below(file, events + 1) : events;

    pieces_of_string(&trace, &walk.string);
    chain_run(chain, budget, budget + case_random_below(file, 3), &trace);
}

void make_stamped_run_cases(struct case_file *file)
{
    try_all_small_edges(file);
    run_tour_to_every_budget(file);
    run_padded_tours(file);
    cut_everywhere(file);
    run_into_faults(file);
    run_into_bad_counters(file);
    chain_tour(file, 1);
    chain_tour(file, 2);
    chain_tour(file, 3);
    run_first_stamps(file);
    start_from_every_pair(file);
    walk_long(file);
    seeded_chains(file, add_random_run, MOST_CHAINED, SEEDED_CHAINS);
}
