#include "cases.h"

#include "number.h"
#include "phy_fields.h"
#include "run_chain.h"

enum {
    LONG_TRACE = 65536,
    LONG_RUN_CUT_SHORT = 30011,
    SEEDED_CHAINS = 90,
    MOST_CHAINED = 6,
    MOST_ITEMS = 24,
    PADDED_ONE_IN = 8,
    PADDED_GROUPS = 4
};

/* ---- Budgets and buffers ---- */

static void try_rooms(struct case_file *file, uint64_t budget, const struct pieces *trace)
{
    if (budget > 0) {
        single_run(file, phy_fresh(), budget, budget - 1, trace);
    }
    single_run(file, phy_fresh(), budget, budget, trace);
    single_run(file, phy_fresh(), budget, budget + 3, trace);
}

/* No buffer is as long as the last budgets; their low 32 bits are 0 or 1. */
static void try_budgets(struct case_file *file, const struct pieces *trace, uint64_t events)
{
    const uint64_t budgets[] = {0, 1, events - 1, events, events + 1};
    static const uint64_t huge[] = {PAST_32_BITS, PAST_32_BITS + 1, UINT64_C(1) << 63, UINT64_MAX};

    for (size_t i = 0; i < sizeof budgets / sizeof budgets[0]; i++) {
        try_rooms(file, budgets[i], trace);
    }
    for (size_t i = 0; i < sizeof huge / sizeof huge[0]; i++) {
        single_run(file, phy_fresh(), huge[i], events + 1, trace);
    }
}

static void run_scripts(struct case_file *file)
{
    for (size_t i = 0; i < phy_script_count; i++) {
        struct pieces trace;
        uint64_t events = pieces_of_script(&trace, phy_scripts[i], SHORTEST);

        try_budgets(file, &trace, events);
    }
}

/* Every answer comes at the same event as without padding. */
static void run_padded_scripts(struct case_file *file)
{
    for (size_t i = 0; i < phy_script_count; i++) {
        struct pieces trace;
        uint64_t events = pieces_of_script(&trace, phy_scripts[i], PADDED_GROUPS);

        single_run(file, phy_fresh(), events, events, &trace);
    }
}

/* Good and bad states, traces, budgets and buffers, each with each: which of them is looked at first. */
static void try_small_edges(struct case_file *file, struct phy start, const struct pieces *trace)
{
    static const uint64_t budgets[] = {0, 1, 2, UINT64_MAX};

    for (size_t i = 0; i < sizeof budgets / sizeof budgets[0]; i++) {
        for (size_t room = 0; room <= 3; room++) {
            single_run(file, start, budgets[i], room, trace);
        }
    }
}

static void try_all_small_edges(struct case_file *file)
{
    static const uint8_t traces[][2] = {
        {EVENT_TICK, EVENT_TICK}, {EVENT_CANCEL_OPEN, 0}, {0, EVENT_TICK}, {EVENT_TX_OPEN, 0xFF}
    };
    const struct phy fresh = phy_fresh();
    struct phy starts[] = {fresh, sample_record(LINK_IDLE, PORT_CONNECTED, 0), fresh, fresh, fresh};

    starts[2].far_closed = 2;
    starts[3].accept = UINT64_MAX;
    starts[4].part = 1;
    for (size_t i = 0; i < sizeof traces / sizeof traces[0]; i++) {
        for (size_t length = 0; length <= sizeof traces[i]; length++) {
            struct pieces trace;

            pieces_clear(&trace);
            pieces_add(&trace, 1, traces[i], length);
            for (size_t k = 0; k < sizeof starts / sizeof starts[0]; k++) {
                try_small_edges(file, starts[k], &trace);
            }
        }
    }
}

/* ---- Faults ---- */

static void add_tour(struct byte_string *string, size_t from, size_t to)
{
    for (size_t i = from; i < to; i++) {
        add_event(string, &phy_tour[i]);
    }
}

static void cut_everywhere(struct case_file *file)
{
    struct byte_string string = {.length = 0};

    add_tour(&string, 0, phy_tour_count);

    size_t whole = string.length;

    for (string.length = 0; string.length <= whole; string.length++) {
        struct pieces trace;

        pieces_clear(&trace);
        pieces_add_string(&trace, 1, &string);
        single_run(file, phy_fresh(), phy_tour_count, phy_tour_count, &trace);
    }
}

/* The budget ends before the fault, at it, just behind it and not at all. */
static void run_into_fault(struct case_file *file, size_t before, enum number_fault fault)
{
    struct byte_string string = {.length = 0};
    struct pieces trace;

    add_tour(&string, 0, before);
    add_fault(&string, fault);
    if (fault < FAULT_CUT) {
        add_tour(&string, before, phy_tour_count);
    }
    pieces_clear(&trace);
    pieces_add_string(&trace, 1, &string);
    if (before > 0) {
        single_run(file, phy_fresh(), before - 1, before, &trace);
    }
    single_run(file, phy_fresh(), before, before, &trace);
    single_run(file, phy_fresh(), before + 1, before + 1, &trace);
    single_run(file, phy_fresh(), phy_tour_count + 5, phy_tour_count + 6, &trace);
}

static void run_into_faults(struct case_file *file)
{
    for (size_t before = 0; before <= phy_tour_count; before++) {
        for (enum number_fault fault = FAULT_OUT_OF_RANGE; fault < NUMBER_FAULTS; fault++) {
            run_into_fault(file, before, fault);
        }
    }
}

/* The place of the fault counts the padding before it. The budget ends at the fault, and behind it. */
static void run_padded_into_fault(struct case_file *file, size_t before, enum number_fault fault)
{
    struct byte_string string = {.length = 0};
    struct pieces trace;

    for (size_t i = 0; i < before; i++) {
        add_randomly_padded_event(file, &string, &phy_tour[i], PADDED_GROUPS);
    }
    add_fault(&string, fault);
    pieces_clear(&trace);
    pieces_add_string(&trace, 1, &string);
    single_run(file, phy_fresh(), before, before, &trace);
    single_run(file, phy_fresh(), before + 1, before + 2, &trace);
}

static void run_padded_into_faults(struct case_file *file)
{
    for (size_t before = 0; before <= phy_tour_count; before++) {
        run_padded_into_fault(file, before, (enum number_fault)(before % NUMBER_FAULTS));
    }
}

static void one_event_at_a_time(struct case_file *file)
{
    struct chain chain = start_chain(file, phy_fresh(), phy_tour_count);

    for (size_t i = 0; i < phy_tour_count; i++) {
        struct byte_string string = {.length = 0};
        struct pieces trace;

        add_tour(&string, i, phy_tour_count);
        pieces_clear(&trace);
        pieces_add_string(&trace, 1, &string);
        chain_run(&chain, 1, 1, &trace);
    }
}

/* ---- States ---- */

/* First with a buffer too short, which comes second to the state; neither changes it. */
static void judge_field(struct case_file *file, const struct phy *phy, enum phy_field field, uint64_t value)
{
    static const uint8_t bytes[] = {EVENT_TICK, EVENT_PHY_DISABLED};
    uint64_t fields[PHY_FIELDS];
    struct pieces trace;

    phy_to_fields(phy, fields);
    fields[field] = value;
    pieces_clear(&trace);
    pieces_add(&trace, 1, bytes, sizeof bytes);

    struct chain chain = start_chain(file, phy_from_fields(fields), 2);

    chain_run(&chain, sizeof bytes, 1, &trace);
    chain_run(&chain, sizeof bytes, sizeof bytes, &trace);
}

static void judge_listed_values(struct case_file *file, const struct phy *phy, enum phy_field field)
{
    for (size_t i = 0; i < phy_field_values[field].count; i++) {
        judge_field(file, phy, field, phy_field_values[field].values[i]);
    }
}

static void judge_fields(struct case_file *file, const struct phy *phy)
{
    for (enum phy_field field = FIELD_LINK; field < PHY_FIELDS; field++) {
        judge_listed_values(file, phy, field);
    }
}

static void run_every_code(struct case_file *file, struct phy phy)
{
    for (uint64_t code = EVENT_TX_OPEN; code <= EVENT_PHY_DISABLED; code++) {
        struct pieces trace;

        pieces_clear(&trace);
        pieces_add_event(&trace, 1, sample_event(code));
        single_run(file, phy, 1, 1, &trace);
    }
}

/* In P2 a part can be other than 0, but not with the most wait, and in P4 not at all. */
static void start_on_second_slope(struct case_file *file, struct phy phy)
{
    phy.request.wait = PHY_MOST_WAIT;
    judge_listed_values(file, &phy, FIELD_PART);
    phy.request.wait = SECOND_SLOPE_WAIT;
    judge_listed_values(file, &phy, FIELD_PART);
    phy.part = PHY_MILLISECOND - 1;
    if (phy_is_valid(&phy)) {
        run_every_code(file, phy);
    }
}

static void start_from(struct case_file *file, struct phy phy)
{
    judge_fields(file, &phy);
    run_every_code(file, phy);
    phy.accept = 1;
    run_every_code(file, phy);
    if (phy.port == PORT_REQ_WAIT || phy.port == PORT_WAIT_FOR_CLOSE) {
        start_on_second_slope(file, phy);
    }
}

static void start_from_every_pair(struct case_file *file)
{
    for (uint64_t link = LINK_IDLE; link <= LINK_BREAK; link++) {
        for (uint64_t port = PORT_IDLE; port <= PORT_WAIT_FOR_CLOSE; port++) {
            struct phy phy = sample_record(link, port, 0);

            if (phy_is_valid(&phy)) {
                start_from(file, phy);
            }
        }
    }
}

/* ---- Long walks ---- */

/* Answers and refusals lie far apart in them, or the lines would be too long. */
static const struct phy_item cycles[][SCRIPT_ITEMS] = {
    /* AIPs keep a request waiting, so its wait comes to the second slope; that of the late one, to the most. */
    {PLAIN(499, EVENT_TICK), PLAIN(1, EVENT_AIP)},
    {PLAIN(1, EVENT_TICK)},
    {TX_OPEN(7, 1, 0), PLAIN(2000, EVENT_TICK)},
    {PLAIN(1, EVENT_BREAK)},
    {PLAIN(1, EVENT_CANCEL_OPEN)},
    {PLAIN(1, EVENT_ACCEPT_OPENS), OPEN_FROM(7, 0), PLAIN(50, EVENT_TICK), PLAIN(1, EVENT_CLOSE),
     PLAIN(1, EVENT_CLOSE_CONNECTION)},
    {PLAIN(1, EVENT_REJECT_OPENS), TX_OPEN(7, 2, 32750), PLAIN(1, EVENT_AIP), PLAIN(45, EVENT_TICK),
     OPEN_FROM(8, 2), PLAIN(1, EVENT_TICK), PLAIN(1, EVENT_BREAK)},
    {TX_OPEN(9, 0, 0), PLAIN(50, EVENT_TICK), PLAIN(1, EVENT_BREAK), PLAIN(1, EVENT_TICK)},
    {TX_OPEN(7, 1, 3), PLAIN(1, EVENT_OPEN_ACCEPT), PLAIN(1, EVENT_CLOSE_CONNECTION),
     PLAIN(2001, EVENT_TICK)}
};
enum { CYCLES = sizeof cycles / sizeof cycles[0] };

static const struct phy_event late_open = {
    EVENT_TX_OPEN, {WANTED_ADDRESS, PROTOCOL_SSP, RATE_3_GBPS, 300, 2, 65500}
};

/* As often as it goes into the longest trace, then ticks up to its last byte. */
static void repeat_cycle(struct pieces *trace, const struct phy_item items[SCRIPT_ITEMS])
{
    struct byte_string string = {.length = 0};

    for (size_t i = 0; i < SCRIPT_ITEMS && items[i].repeat != 0; i++) {
        for (uint64_t k = 0; k < items[i].repeat; k++) {
            add_event(&string, &items[i].event);
        }
    }
    pieces_clear(trace);
    pieces_add_string(trace, LONG_TRACE / string.length, &string);
    pieces_add_event(trace, LONG_TRACE - trace->length, plain_event(EVENT_TICK));
}

/* The first run of a cycle breaks off in the middle of it, so the next starts in another state. */
static void walk_long(struct case_file *file, size_t stride, struct phy_event open)
{
    struct chain chain = start_chain(file, phy_fresh(), 1 + 2 * CYCLES);
    struct pieces trace;

    pieces_clear(&trace);
    pieces_add_event(&trace, 1, open);
    chain_run(&chain, 1, 1, &trace);
    for (size_t i = 0; i < CYCLES; i++) {
        repeat_cycle(&trace, cycles[i * stride % CYCLES]);
        chain_run(&chain, LONG_RUN_CUT_SHORT, LONG_RUN_CUT_SHORT, &trace);
        chain_run(&chain, LENT_ROOM, LENT_ROOM, &trace);
    }
}

/* The Open that nobody answers, its ticks as wide as can be, up to the last byte of the longest trace. */
static void walk_long_padded(struct case_file *file)
{
    struct pieces trace;

    pieces_clear(&trace);
    pieces_add_padded_event(&trace, 1, sample_event(EVENT_TX_OPEN), NUMBER_MOST_BYTES);

    uint64_t ticks = (LONG_TRACE - trace.length) / NUMBER_MOST_BYTES;

    pieces_add_padded_event(&trace, ticks, plain_event(EVENT_TICK), NUMBER_MOST_BYTES);
    pieces_add_event(&trace, LONG_TRACE - trace.length, plain_event(EVENT_TICK));
    single_run(file, phy_fresh(), LENT_ROOM, LENT_ROOM, &trace);
}

/* ---- Seeded chains ---- */

/* now: where the trace so far leads if all of it is taken. */
struct walk {
    struct phy now;
    uint64_t events;
    struct pieces trace;
};

/* An event that is repeated is not padded, or the trace would be too long. */
static size_t random_groups(struct case_file *file, uint64_t repeat)
{
    if (repeat > 1 || !case_random_one_in(file, PADDED_ONE_IN)) {
        return SHORTEST;
    }
    return 1 + (size_t)case_random_below(file, NUMBER_MOST_BYTES);
}

static void add_random_item(struct case_file *file, struct walk *walk)
{
    static const uint64_t ticks[] = {1, 1, 1, 2, 500, 998, 999, 1000, 1001, 2000};
    uint64_t code = random_likely_code(file, walk->now.link);
    uint64_t repeat = 1;

    if (case_random_one_in(file, 8)) {
        code = EVENT_TX_OPEN + case_random_below(file, EVENT_PHY_DISABLED);
    }
    if (code == EVENT_TICK) {
        repeat = case_random_of(file, ticks, sizeof ticks / sizeof ticks[0]);
    }

    struct phy_event event = random_event_of(file, code);

    pieces_add_padded_event(&walk->trace, repeat, event, random_groups(file, repeat));
    walk->events += repeat;
    for (uint64_t i = 0; i < repeat; i++) {
        walk->now = phy_step(walk->now, event).phy;
    }
}

static void add_random_fault(struct case_file *file, struct walk *walk)
{
    struct byte_string string = {.length = 0};

    add_fault(&string, (enum number_fault)case_random_below(file, NUMBER_FAULTS));
    pieces_add_string(&walk->trace, 1, &string);
}

static uint64_t random_budget(struct case_file *file, uint64_t events)
{
    switch (case_random_below(file, 5)) {
    case 0:
        return case_random_below(file, events + 1);
    case 1:
        return events + 1 + case_random_below(file, 4);
    case 2:
        return events - 1;
    default:
        return events;
    }
}

static void add_random_run(struct case_file *file, struct chain *chain)
{
    struct walk walk = {.now = chain->now};
    uint64_t items = 1 + case_random_below(file, MOST_ITEMS);
    uint64_t fault_at = case_random_one_in(file, 4) ? case_random_below(file, items) : items;

    for (uint64_t i = 0; i < items; i++) {
        if (i == fault_at) {
            add_random_fault(file, &walk);
        }
        add_random_item(file, &walk);
    }

    uint64_t budget = random_budget(file, walk.events);
    uint64_t room = budget + case_random_below(file, 3);

    if (budget > 0 && case_random_one_in(file, 12)) {
        room = budget - 1;
    }
    chain_run(chain, budget, room, &walk.trace);
}

void make_run_cases(struct case_file *file)
{
    try_all_small_edges(file);
    run_scripts(file);
    run_padded_scripts(file);
    cut_everywhere(file);
    run_into_faults(file);
    run_padded_into_faults(file);
    one_event_at_a_time(file);
    start_from_every_pair(file);
    walk_long(file, 1, sample_event(EVENT_TX_OPEN));
    walk_long(file, CYCLES - 1, late_open);
    walk_long_padded(file);
    seeded_chains(file, add_random_run, MOST_CHAINED, SEEDED_CHAINS);
}
