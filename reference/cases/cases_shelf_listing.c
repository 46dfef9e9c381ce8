#include "cases.h"

#include "case_shelf_listing.h"
#include "listing.h"
#include "number.h"
#include "shelf_listing.h"
#include "stamp_samples.h"

#include <assert.h>

enum {
    WALK_EVENTS = 40,
    SHORT_EVENTS = 14,
    DAMAGED_WALKS = 6,
    LONG_PHYS = 3
};

/* None, the ends of what a port may have, a few between them, and one too many. */
static const size_t rows[] = {0, 1, 2, 3, 7, 8, SHELF_LISTING_MOST_PHYS};
enum { ROWS = sizeof rows / sizeof rows[0] };

static const struct phy_event tick = {.code = EVENT_TICK};

static void list_nothing(struct case_file *file)
{
    struct pieces trace;

    pieces_clear(&trace);
    for (size_t phys = 0; phys <= SHELF_LISTING_MOST_PHYS; phys++) {
        shelf_listing_case(file, phys, &trace);
    }
}

/* ---- Every kind of event line ---- */

static void add_tour(struct byte_string *string, size_t to, size_t groups)
{
    for (size_t i = 0; i < to; i++) {
        add_padded_shelf_event(string, shelf_tour[i], groups);
    }
}

/* It is told for two phys, and means something else to any other row. */
static void list_tours(struct case_file *file)
{
    struct byte_string string = {.length = 0};

    add_tour(&string, SHELF_TOUR, SHORTEST);
    for (size_t i = 0; i < ROWS; i++) {
        list_shelf_string(file, rows[i], &string);
    }
}

/* The same events in one width and another; only the places differ. */
static void list_padded_tours(struct case_file *file)
{
    static const size_t groups[] = {2, 3, 9, NUMBER_MOST_BYTES};

    for (size_t i = 0; i < sizeof groups / sizeof groups[0]; i++) {
        struct byte_string string = {.length = 0};

        add_tour(&string, SHELF_TOUR, groups[i]);
        list_shelf_string(file, 2, &string);
    }
}

/* To the row's last phy, to the port itself, and to what is no phy. */
static void list_every_code(struct case_file *file, size_t phys)
{
    const uint64_t numbers[] = {phys > 0 ? phys - 1 : 1, THE_PORT_ITSELF, phys, 126, 128, UINT64_MAX};
    struct byte_string string = {.length = 0};

    for (size_t i = 0; i < sizeof numbers / sizeof numbers[0]; i++) {
        for (uint64_t code = EVENT_TX_OPEN; code <= EVENT_TIME_STAMP; code++) {
            add_shelf_event(&string, to_phy(numbers[i], sample_event(code)), SHORTEST);
        }
    }
    list_shelf_string(file, phys, &string);
}

/* Their low bits are those of a phy or of the port itself. */
static void list_far_numbers(struct case_file *file)
{
    static const uint64_t numbers[] = {
        PAST_8_BITS, PAST_8_BITS + THE_PORT_ITSELF, PAST_32_BITS, PAST_32_BITS + THE_PORT_ITSELF, UINT64_C(1) << 63
    };
    struct byte_string string = {.length = 0};

    for (size_t i = 0; i < sizeof numbers / sizeof numbers[0]; i++) {
        add_shelf_event(&string, to_phy(numbers[i], sample_event(EVENT_TX_OPEN)), SHORTEST);
        add_shelf_event(&string, to_phy(numbers[i], tick), SHORTEST);
    }
    list_shelf_string(file, PORT_MOST_BAYS, &string);
}

/* 3 to 6 of a phy, 2 and 12 of the port; a row that is no port's has 1 in every line. */
static void list_refusals(struct case_file *file, size_t phys)
{
    const struct shelf_event events[] = {
        to_phy(0, sample_event(EVENT_TX_OPEN)), to_phy(0, sample_event(EVENT_TX_OPEN)),
        to_phy(1, plain_event(EVENT_CANCEL_OPEN)), to_phy(1, plain_event(EVENT_CLOSE_CONNECTION)),
        to_phy(1, plain_event(EVENT_SMP_TRANSMIT_BREAK)), to_phy(0, plain_event(EVENT_OPEN_ACCEPT)),
        to_phy(0, plain_event(EVENT_SMP_TRANSMIT_BREAK)), to_port(plain_event(EVENT_CANCEL_OPEN)),
        to_phy(phys, plain_event(EVENT_CANCEL_OPEN)), to_phy(phys, sample_event(EVENT_TX_OPEN)),
        to_port(sample_event(EVENT_TX_OPEN))
    };
    struct byte_string string = {.length = 0};

    for (size_t i = 0; i < sizeof events / sizeof events[0]; i++) {
        add_shelf_event(&string, events[i], SHORTEST);
    }
    list_shelf_string(file, phys, &string);
}

/* The first stamp of each only sets its base, wherever the others stand. */
static void list_bases(struct case_file *file, size_t phys)
{
    struct byte_string string = {.length = 0};

    for (uint64_t i = 0; i < phys; i++) {
        add_shelf_event(&string, to_port(numbered_open(i)), SHORTEST);
        add_shelf_event(&string, to_phy(i, stamp_at(BAY_MOST_COUNTER - 400 * i)), SHORTEST);
    }
    for (uint64_t counter = 599; counter <= 1599; counter += 500) {
        for (uint64_t i = 0; i < phys; i++) {
            add_shelf_event(&string, to_phy(i, stamp_at(counter)), SHORTEST);
        }
    }
    list_shelf_string(file, phys, &string);
}

static void list_all_events(struct case_file *file)
{
    list_tours(file);
    list_padded_tours(file);
    for (size_t i = 0; i < ROWS; i++) {
        list_every_code(file, rows[i]);
        list_refusals(file, rows[i]);
    }
    list_far_numbers(file);
    list_bases(file, 2);
    list_bases(file, PORT_MOST_BAYS);
}

/* ---- Every kind of stop ---- */

/* Behind a phy's number the end is a cut, behind an event it is the end. */
static void list_every_prefix(struct case_file *file)
{
    const struct shelf_event events[] = {
        to_phy(300, tick), to_port(sample_event(EVENT_TX_OPEN)), to_phy(1, stamp_at(5000)),
        to_phy(0, (struct phy_event){EVENT_OPEN_REJECT, {3}}), to_phy(0, sample_event(EVENT_OPEN_RECEIVED))
    };
    struct byte_string string = {.length = 0};

    for (size_t i = 0; i < sizeof events / sizeof events[0]; i++) {
        add_shelf_event(&string, events[i], 1 + i % 3);
    }
    for (size_t length = 0; length <= string.length; length++) {
        list_shelf_bytes(file, 2, string.bytes, length);
    }
}

/* The phy's number is padded by turns, so the place that is told is not always one byte before that of the code. */
static void list_fault(
    struct case_file *file, const struct phy_event *event, size_t which, enum number_fault fault, size_t before)
{
    struct byte_string string = {.length = 0};

    add_tour(&string, before, SHORTEST);
    add_padded(&string, which % 2 == 0 ? 0 : THE_PORT_ITSELF, 1 + (size_t)fault);
    add_faulty_event(&string, event, which, fault);
    if (fault < FAULT_CUT) {
        add_shelf_event(&string, to_phy(0, tick), SHORTEST);
    }
    list_shelf_string(file, 2, &string);
}

static void list_faults(struct case_file *file, const struct phy_event *event)
{
    for (size_t which = 0; which < event_numbers(event); which++) {
        for (enum number_fault fault = FAULT_OUT_OF_RANGE; fault < NUMBER_FAULTS; fault++) {
            list_fault(file, event, which, fault, 0);
            list_fault(file, event, which, fault, 1 + which % 3);
        }
    }
}

/* In the place of a phy's number none is out of range: the port judges it, and the listing goes on. */
static void list_number_faults(struct case_file *file, size_t phys, size_t before)
{
    for (enum number_fault fault = FAULT_OUT_OF_RANGE; fault < NUMBER_FAULTS; fault++) {
        struct byte_string string = {.length = 0};

        add_tour(&string, before, SHORTEST);
        add_fault(&string, fault);
        if (fault < FAULT_CUT) {
            add_event(&string, &tick);
            add_shelf_event(&string, to_phy(0, tick), SHORTEST);
        }
        list_shelf_string(file, phys, &string);
    }
}

/* Whatever the port would say of the number: what cannot be read comes first. */
static void list_bad_codes(struct case_file *file)
{
    static const uint64_t codes[] = {0, EVENT_TIME_STAMP + 1, THE_PORT_ITSELF, PAST_8_BITS + EVENT_TICK, UINT64_MAX};
    static const uint64_t numbers[] = {1, THE_PORT_ITSELF, 200};

    for (size_t i = 0; i < sizeof codes / sizeof codes[0]; i++) {
        for (size_t k = 0; k < sizeof numbers / sizeof numbers[0]; k++) {
            struct byte_string string = {.length = 0};

            add_shelf_event(&string, to_phy(numbers[k], tick), SHORTEST);
            add_shelf_event(&string, to_phy(numbers[k], plain_event(codes[i])), SHORTEST);
            list_shelf_string(file, rows[(i + k) % ROWS], &string);
        }
    }
}

static void list_bad_counters(struct case_file *file)
{
    for (size_t i = 0; i < bad_counter_count; i++) {
        struct byte_string string = {.length = 0};

        add_tour(&string, 2, SHORTEST);
        add_shelf_event(&string, to_phy(i % 2, stamp_at(bad_counters[i])), SHORTEST);
        list_shelf_string(file, 2, &string);
    }
}

static void list_all_stops(struct case_file *file)
{
    const struct phy_event tx_open = sample_event(EVENT_TX_OPEN);
    const struct phy_event open_received = sample_event(EVENT_OPEN_RECEIVED);
    const struct phy_event stamp = stamp_at(5);

    list_every_prefix(file);
    list_faults(file, &tx_open);
    list_faults(file, &open_received);
    list_faults(file, &stamp);
    list_number_faults(file, 2, 0);
    list_number_faults(file, 2, SHELF_TOUR);
    list_number_faults(file, 0, 3);
    list_number_faults(file, SHELF_LISTING_MOST_PHYS, 3);
    list_bad_codes(file);
    list_bad_counters(file);
}

/* ---- Long traces: every number has ten bytes, so that the lines are few ---- */

static void add_long_cycle(struct pieces *trace, size_t most)
{
    const struct shelf_event events[] = {
        to_port(widest_tx_open), to_phy(0, stamp_at(BAY_MOST_COUNTER - PHY_TIMER_START)), to_port(widest_tx_open),
        to_phy(LONG_PHYS - 1, widest_tx_open), to_port(widest_tx_open), to_phy(0, stamp_at(PHY_TIMER_START)),
        to_phy(UINT64_MAX, widest_tx_open), to_phy(1, plain_event(EVENT_OPEN_REJECT)), to_port(widest_tx_open)
    };
    struct byte_string cycle = {.length = 0};

    for (size_t i = 0; i < sizeof events / sizeof events[0]; i++) {
        add_padded_shelf_event(&cycle, events[i], NUMBER_MOST_BYTES);
    }
    pieces_add_string(trace, most / cycle.length, &cycle);
}

/* In two bytes each; of an odd number of bytes the first tick has three. */
static void add_ticks(struct pieces *trace, size_t bytes)
{
    static const uint8_t three[] = {0x81, 0, EVENT_TICK};
    static const uint8_t two[] = {1, EVENT_TICK};
    size_t odd = bytes % 2;

    assert(bytes != 1);
    pieces_add(trace, odd, three, sizeof three);
    pieces_add(trace, (bytes - odd * sizeof three) / sizeof two, two, sizeof two);
}

/* Its last event lacks so many of its bytes. */
static void list_long_trace(struct case_file *file, size_t phys, size_t length, size_t lacking)
{
    struct byte_string last = {.length = 0};
    struct pieces trace;

    add_padded_shelf_event(&last, to_port(widest_tx_open), NUMBER_MOST_BYTES);
    last.length -= lacking;
    pieces_clear(&trace);
    add_long_cycle(&trace, length - last.length);
    add_ticks(&trace, length - last.length - trace.length);
    pieces_add_string(&trace, 1, &last);
    assert(trace.length == length);
    shelf_listing_case(file, phys, &trace);
}

/* Wrong from its first event on, which is told unless the trace is too long. */
static void list_filled(struct case_file *file, uint8_t byte, uint64_t length)
{
    struct pieces trace;

    pieces_clear(&trace);
    pieces_add(&trace, length, &byte, 1);
    shelf_listing_case(file, 2, &trace);
}

static void list_long_traces(struct case_file *file)
{
    list_long_trace(file, LONG_PHYS, LISTING_MOST_BYTES, 0);
    list_long_trace(file, 0, LISTING_MOST_BYTES, 1);
    list_long_trace(file, LONG_PHYS, LISTING_MOST_BYTES + 1, 0);
    list_long_trace(file, 0, LISTING_MOST_BYTES + 1, 0);
    list_long_trace(file, SHELF_LISTING_MOST_PHYS, LISTING_MOST_BYTES + 1, 1);
    list_filled(file, 0x00, LISTING_MOST_BYTES);
    list_filled(file, 0xFF, LISTING_MOST_BYTES);
    list_filled(file, 0x00, LISTING_MOST_BYTES + 1);
    list_filled(file, 0xFF, LISTING_MOST_BYTES + 1);
}

/* ---- Seeded walks ---- */

/* A row of none has nothing to choose by; it is walked as if it had a phy. */
static struct byte_string random_walk(struct case_file *file, size_t phys, size_t events, size_t most_groups)
{
    struct byte_string string = {.length = 0};
    struct port_box now = fresh_box(phys > 0 ? phys : 1);

    for (size_t i = 0; i < events; i++) {
        struct shelf_event event = random_shelf_event(file, &now, 4);

        add_randomly_padded(file, &string, event.number, most_groups);
        add_randomly_padded_event(file, &string, &event.event, most_groups);
        port_step(box_port(&now), event);
    }
    return string;
}

static void list_random_walk(struct case_file *file, size_t phys, size_t most_groups)
{
    struct byte_string string = random_walk(file, phys, WALK_EVENTS, most_groups);

    list_shelf_string(file, phys, &string);
}

static void list_damaged_walk(struct case_file *file, size_t phys, size_t most_groups)
{
    struct byte_string string = random_walk(file, phys, SHORT_EVENTS, most_groups);

    random_damage(file, &string);
    list_shelf_string(file, phys, &string);
}

static void list_walks(struct case_file *file)
{
    for (size_t phys = 0; phys <= SHELF_LISTING_MOST_PHYS; phys++) {
        list_random_walk(file, phys, SHORTEST);
        list_random_walk(file, phys, NUMBER_MOST_BYTES);
        for (int i = 0; i < DAMAGED_WALKS; i++) {
            list_damaged_walk(file, phys, i % 3 == 0 ? 2 : SHORTEST);
        }
    }
}

void make_shelf_listing_cases(struct case_file *file)
{
    list_nothing(file);
    list_all_events(file);
    list_all_stops(file);
    list_long_traces(file);
    list_walks(file);
}

/* ---- Traces from a folder ---- */

static bool take_named_trace(void *lent, const char *path, const struct hex_bytes *read)
{
    struct case_file *file = lent;

    if (read->phys == HEX_NO_PHYS) {
        fprintf(stderr, "%s: the first line does not name the phys\n", path);
        return false;
    }
    list_shelf_bytes(file, read->phys, read->bytes, read->length);
    return true;
}

bool make_named_shelf_listing_cases(struct case_file *file, const char *folder)
{
    return hex_folder_read(folder, take_named_trace, file);
}
