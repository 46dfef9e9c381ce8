#include "cases.h"

#include "case_listing.h"
#include "listing.h"
#include "number.h"
#include "stamp_samples.h"

enum {
    RANDOM_WALKS = 25,
    DAMAGED_WALKS = 60,
    PADDED_WALKS = 5,
    DAMAGED_PADDED_WALKS = 15
};

/* ---- Every kind of line ---- */

/* From each pair of link and port; a reset between them keeps the base. Early gaps go past the counter's end. */
static void list_gaps(struct case_file *file, const struct phy_item way[SCRIPT_ITEMS], uint64_t flag)
{
    static const uint64_t gaps[] = {
        0, 1, 2, 998, 999, 1000, 1001, 1998, 1999, 2000, 2001, 65536, UINT64_C(1) << 31, BAY_MOST_COUNTER
    };
    struct byte_string string = {.length = 0};
    struct phy_event stamp = stamp_at(BAY_MOST_COUNTER - 1500);

    add_event(&string, &stamp);
    for (size_t i = 0; i < sizeof gaps / sizeof gaps[0]; i++) {
        add_byte(&string, (uint8_t)flag);
        add_way(&string, way);
        stamp = stamp_behind(stamp.argument[0], gaps[i]);
        add_event(&string, &stamp);
        add_byte(&string, EVENT_HARD_RESET);
    }
    list_string(file, &string);
}

static void list_all_gaps(struct case_file *file)
{
    for (size_t i = 0; i < listing_way_count; i++) {
        list_gaps(file, listing_ways[i], EVENT_ACCEPT_OPENS);
        list_gaps(file, listing_ways[i], EVENT_REJECT_OPENS);
    }
}

/* The first has no tick, and a tick behind it does not move the base. */
static void list_first_stamps(struct case_file *file)
{
    for (size_t i = 0; i < counter_count; i++) {
        const struct phy_event open = sample_event(EVENT_TX_OPEN);
        struct phy_event stamp = stamp_at(counters[i]);
        struct byte_string string = {.length = 0};

        add_event(&string, &open);
        add_event(&string, &stamp);
        add_byte(&string, EVENT_TICK);
        stamp = stamp_behind(counters[i], PHY_TIMER_START - 1);
        add_event(&string, &stamp);
        stamp = stamp_behind(counters[i], 2 * PHY_TIMER_START - 1);
        add_event(&string, &stamp);
        list_string(file, &string);
    }
}

static void add_tour(struct byte_string *string, size_t to, size_t groups)
{
    for (size_t i = 0; i < to; i++) {
        add_padded_event(string, &stamped_tour[i], groups);
    }
}

/* The same events in one width and another; only the places differ. */
static void list_padded_tours(struct case_file *file)
{
    for (size_t groups = SHORTEST; groups <= NUMBER_MOST_BYTES; groups++) {
        struct byte_string string = {.length = 0};

        add_tour(&string, STAMPED_TOUR, groups);
        list_string(file, &string);
    }
}

/* ---- Every kind of stop ---- */

static void list_fault(struct case_file *file, size_t before, size_t which, enum number_fault fault)
{
    const struct phy_event stamp = stamp_at(before);
    struct byte_string string = {.length = 0};

    add_tour(&string, before, SHORTEST);
    add_faulty_event(&string, &stamp, which, fault);
    if (fault < FAULT_CUT) {
        add_byte(&string, EVENT_TICK);
    }
    list_string(file, &string);
}

static void list_faults(struct case_file *file)
{
    static const size_t befores[] = {0, 2, 6, STAMPED_TOUR};

    for (size_t i = 0; i < sizeof befores / sizeof befores[0]; i++) {
        for (enum number_fault fault = FAULT_OUT_OF_RANGE; fault < NUMBER_FAULTS; fault++) {
            list_fault(file, befores[i], 0, fault);
            list_fault(file, befores[i], 1, fault);
        }
    }
}

static void list_bad_counters(struct case_file *file)
{
    for (size_t i = 0; i < bad_counter_count; i++) {
        struct phy_event stamp = stamp_at(bad_counters[i]);
        struct byte_string string = {.length = 0};

        add_tour(&string, 4, SHORTEST);
        add_event(&string, &stamp);
        list_string(file, &string);
    }
}

/* ---- Long traces ---- */

static void add_long_cycle(struct pieces *trace, size_t most)
{
    const struct phy_event first = stamp_at(BAY_MOST_COUNTER - PHY_TIMER_START);
    const struct phy_event second = stamp_at(PHY_TIMER_START);
    struct byte_string cycle = {.length = 0};

    add_padded_event(&cycle, &first, NUMBER_MOST_BYTES);
    add_padded_event(&cycle, &widest_tx_open, NUMBER_MOST_BYTES);
    add_padded_event(&cycle, &second, NUMBER_MOST_BYTES);
    pieces_add_string(trace, most / cycle.length, &cycle);
}

/* Its last event is a stamp. */
static void list_long_trace(struct case_file *file, size_t length)
{
    const struct phy_event stamp = stamp_at(BAY_MOST_COUNTER);
    struct byte_string last = event_string(&stamp, SHORTEST);
    struct pieces trace;

    pieces_clear(&trace);
    add_long_cycle(&trace, length - last.length);
    pieces_add_event(&trace, length - last.length - trace.length, plain_event(EVENT_TICK));
    pieces_add_string(&trace, 1, &last);
    listing_case(file, &trace);
}

/* ---- Seeded walks ---- */

static struct byte_string random_walk(struct case_file *file, size_t events, size_t most_groups)
{
    struct byte_string string = {.length = 0};
    struct bay now = bay_fresh();

    for (size_t i = 0; i < events; i++) {
        struct phy_event event = random_bay_event(file, &now);

        add_randomly_padded_event(file, &string, &event, most_groups);
        now = bay_step(now, event).bay;
    }
    return string;
}

void make_stamped_listing_cases(struct case_file *file)
{
    list_all_gaps(file);
    list_first_stamps(file);
    list_padded_tours(file);
    list_faults(file);
    list_bad_counters(file);
    list_long_trace(file, LISTING_MOST_BYTES);
    list_long_trace(file, LISTING_MOST_BYTES + 1);
    list_random_walks(file, random_walk, RANDOM_WALKS, SHORTEST);
    list_damaged_walks(file, random_walk, DAMAGED_WALKS, SHORTEST);
    list_random_walks(file, random_walk, PADDED_WALKS, NUMBER_MOST_BYTES);
    list_damaged_walks(file, random_walk, DAMAGED_PADDED_WALKS, NUMBER_MOST_BYTES);
}
