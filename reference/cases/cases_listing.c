#include "cases.h"

#include "case_listing.h"
#include "listing.h"
#include "number.h"

enum {
    LONG_EVENTS = 5,
    MOST_SCRIPT_EVENTS = 100,
    RANDOM_WALKS = 25,
    DAMAGED_WALKS = 80,
    PADDED_WALKS = 5,
    DAMAGED_PADDED_WALKS = 15,
    LISTER_WALKS = 150,
    LISTER_PADDED_WALKS = 4
};

static const struct phy_event widest_inbound = {EVENT_OPEN_RECEIVED, {UINT64_MAX, PROTOCOL_STP}};

static void list_nothing(struct case_file *file)
{
    struct pieces trace;

    pieces_clear(&trace);
    listing_case(file, &trace);
}

static void list_paper_example(struct case_file *file)
{
    static const uint8_t bytes[] = {0x01, 0x05, 0x01, 0x09, 0xAC, 0x02, 0x00, 0x00, 0x0B, 0x0D};

    for (size_t length = 0; length <= sizeof bytes; length++) {
        list_bytes(file, bytes, length);
    }
}

/* ---- Every kind of event line ---- */

static void list_every_code(struct case_file *file, const struct phy_item way[SCRIPT_ITEMS], uint64_t flag)
{
    struct byte_string string = {.length = 0};

    for (uint64_t code = EVENT_TX_OPEN; code <= EVENT_PHY_DISABLED; code++) {
        struct phy_event event = sample_event(code);

        add_byte(&string, (uint8_t)flag);
        add_way(&string, way);
        add_event(&string, &event);
        add_byte(&string, EVENT_TICK);
        add_byte(&string, EVENT_HARD_RESET);
    }
    list_string(file, &string);
}

/* Answered at once in L1; in L5 the reason of the reject does not matter. */
static void list_rejects(struct case_file *file)
{
    struct byte_string string = {.length = 0};
    struct phy_event open = sample_event(EVENT_TX_OPEN);

    for (uint64_t reason = 0; reason <= 7; reason++) {
        struct phy_event reject = {.code = EVENT_OPEN_REJECT, .argument = {reason}};

        add_event(&string, &open);
        add_event(&string, &reject);
        add_event(&string, &open);
        add_byte(&string, EVENT_CANCEL_OPEN);
        add_event(&string, &reject);
    }
    list_string(file, &string);
}

static void list_scripts(struct case_file *file)
{
    for (size_t i = 0; i < phy_script_count; i++) {
        struct pieces trace;

        if (pieces_of_script(&trace, phy_scripts[i], SHORTEST) <= MOST_SCRIPT_EVENTS) {
            listing_case(file, &trace);
        }
    }
}

/* The two that only a thousand ticks bring about: Open Timeout and Close Timeout. */
static void list_timeouts(struct case_file *file)
{
    static const struct phy_item items[SCRIPT_ITEMS] = {
        TX_OPEN(7, 1, 0), PLAIN(2000, EVENT_TICK), TX_OPEN(7, 1, 0), PLAIN(1, EVENT_OPEN_ACCEPT),
        PLAIN(1, EVENT_CLOSE_CONNECTION), PLAIN(1000, EVENT_TICK), PLAIN(1, EVENT_BREAK)
    };
    struct pieces trace;

    pieces_of_script(&trace, items, SHORTEST);
    listing_case(file, &trace);
}

static void list_all_events(struct case_file *file)
{
    for (size_t i = 0; i < listing_way_count; i++) {
        list_every_code(file, listing_ways[i], EVENT_ACCEPT_OPENS);
        list_every_code(file, listing_ways[i], EVENT_REJECT_OPENS);
    }
    list_rejects(file);
    list_scripts(file);
    list_timeouts(file);
}

static void add_tour(struct byte_string *string, size_t to, size_t groups)
{
    for (size_t i = 0; i < to; i++) {
        add_padded_event(string, &phy_tour[i], groups);
    }
}

/* The same events in one width and another; only the places differ. */
static void list_padded_tours(struct case_file *file)
{
    for (size_t groups = SHORTEST; groups <= NUMBER_MOST_BYTES; groups += 3) {
        struct byte_string string = {.length = 0};

        add_tour(&string, phy_tour_count, groups);
        list_string(file, &string);
    }
}

/* ---- Every kind of stop ---- */

static void list_fault(struct case_file *file, size_t before, size_t which, enum number_fault fault)
{
    struct byte_string string = {.length = 0};
    struct phy_event open = sample_event(EVENT_TX_OPEN);

    add_tour(&string, before, SHORTEST);
    add_faulty_event(&string, &open, which, fault);
    if (fault < FAULT_CUT) {
        add_byte(&string, EVENT_TICK);
    }
    list_string(file, &string);
}

static void list_faults(struct case_file *file)
{
    const size_t befores[] = {0, 1, 7, phy_tour_count};
    const struct phy_event open = sample_event(EVENT_TX_OPEN);

    for (size_t i = 0; i < sizeof befores / sizeof befores[0]; i++) {
        for (size_t which = 0; which < event_numbers(&open); which++) {
            for (enum number_fault fault = FAULT_OUT_OF_RANGE; fault < NUMBER_FAULTS; fault++) {
                list_fault(file, befores[i], which, fault);
            }
        }
    }
}

/* The stop's place counts the padding before it. */
static void list_faults_behind_padding(struct case_file *file)
{
    for (enum number_fault fault = FAULT_OUT_OF_RANGE; fault < NUMBER_FAULTS; fault++) {
        struct byte_string string = {.length = 0};

        add_tour(&string, phy_tour_count, 3);
        add_fault(&string, fault);
        list_string(file, &string);
    }
}

/* ---- Long traces ---- */

static void add_long_cycle(struct pieces *trace, size_t most, size_t groups)
{
    struct byte_string cycle = {.length = 0};

    for (int i = 0; i < LONG_EVENTS; i++) {
        add_padded_event(&cycle, &widest_tx_open, groups);
    }
    add_padded_event(&cycle, &widest_inbound, groups);
    add_byte(&cycle, EVENT_TICK);
    pieces_add_string(trace, (most - trace->length) / cycle.length, &cycle);
}

static void list_longest(struct case_file *file, size_t groups)
{
    struct pieces trace;

    pieces_clear(&trace);
    add_long_cycle(&trace, LISTING_MOST_BYTES, groups);
    pieces_add_event(&trace, LISTING_MOST_BYTES - trace.length, plain_event(EVENT_TICK));
    listing_case(file, &trace);
}

/* The last event begins within the longest trace and would end one byte after it. */
static void list_longest_cut(struct case_file *file, size_t groups)
{
    struct byte_string last = {.length = 0};
    struct pieces trace;

    add_padded_event(&last, &widest_tx_open, groups);
    last.length--;

    uint64_t events = (LISTING_MOST_BYTES - last.length) / (last.length + 1);

    pieces_clear(&trace);
    pieces_add_padded_event(&trace, events, widest_tx_open, groups);
    pieces_add_event(&trace, LISTING_MOST_BYTES - last.length - trace.length, plain_event(EVENT_TICK));
    pieces_add_string(&trace, 1, &last);
    listing_case(file, &trace);
}

/* Wrong from its first byte on, which is told unless the trace is too long. */
static void list_filled(struct case_file *file, uint8_t byte, uint64_t length)
{
    struct pieces trace;

    pieces_clear(&trace);
    pieces_add(&trace, length, &byte, 1);
    listing_case(file, &trace);
}

/* Nothing behind what is too long makes it shorter. */
static void list_too_long_then_nothing(struct case_file *file)
{
    struct pieces trace;

    pieces_clear(&trace);
    pieces_add_event(&trace, LISTING_MOST_BYTES + 1, plain_event(EVENT_TICK));
    pieces_add_event(&trace, 0, plain_event(EVENT_TICK));
    listing_case(file, &trace);
}

static void list_long_traces(struct case_file *file)
{
    list_longest(file, SHORTEST);
    list_longest(file, NUMBER_MOST_BYTES);
    list_longest_cut(file, SHORTEST);
    list_longest_cut(file, NUMBER_MOST_BYTES);
    list_filled(file, 0x00, LISTING_MOST_BYTES);
    list_filled(file, 0x80, LISTING_MOST_BYTES);
    list_filled(file, 0xFF, LISTING_MOST_BYTES);
    list_filled(file, 0x00, LISTING_MOST_BYTES + 1);
    list_filled(file, 0xFF, LISTING_MOST_BYTES + 1);
    list_filled(file, EVENT_TICK, LISTING_MOST_BYTES + 1);
    list_too_long_then_nothing(file);
}

/* ---- Seeded walks ---- */

static struct byte_string random_walk(struct case_file *file, size_t events, size_t most_groups)
{
    struct byte_string string = {.length = 0};
    struct phy now = phy_fresh();

    for (size_t i = 0; i < events; i++) {
        uint64_t code = random_likely_code(file, now.link);

        if (case_random_one_in(file, 6)) {
            code = EVENT_TX_OPEN + case_random_below(file, EVENT_PHY_DISABLED);
        }

        struct phy_event event = random_event_of(file, code);

        add_randomly_padded_event(file, &string, &event, most_groups);
        now = phy_step(now, event).phy;
    }
    return string;
}

void make_listing_cases(struct case_file *file)
{
    list_nothing(file);
    list_paper_example(file);
    list_all_events(file);
    list_padded_tours(file);
    list_faults(file);
    list_faults_behind_padding(file);
    list_long_traces(file);
    list_random_walks(file, random_walk, RANDOM_WALKS, SHORTEST);
    list_damaged_walks(file, random_walk, DAMAGED_WALKS, SHORTEST);
    list_random_walks(file, random_walk, PADDED_WALKS, NUMBER_MOST_BYTES);
    list_damaged_walks(file, random_walk, DAMAGED_PADDED_WALKS, NUMBER_MOST_BYTES);
}

/* ---- The lister's own trace ---- */

/* Its listing is more than twice as long as a program's buffer, so that it is written in parts. */
void make_lister_case(struct case_file *file)
{
    struct byte_string walk = random_walk(file, WALK_EVENTS, SHORTEST);
    struct byte_string padded = random_walk(file, WALK_EVENTS, NUMBER_MOST_BYTES);
    struct pieces trace;

    pieces_clear(&trace);
    pieces_add_string(&trace, LISTER_WALKS, &walk);
    pieces_add_string(&trace, LISTER_PADDED_WALKS, &padded);
    fwrite(trace.whole, 1, trace.length, file->cases);
    list_trace(file->expected, trace.whole, trace.length);
}

/* ---- Traces from a folder ---- */

static bool take_named_trace(void *lent, const char *path, const struct hex_bytes *read)
{
    struct case_file *file = lent;

    (void)path;
    list_bytes(file, read->bytes, read->length);
    return true;
}

bool make_named_listing_cases(struct case_file *file, const char *folder)
{
    return hex_folder_read(folder, take_named_trace, file);
}
