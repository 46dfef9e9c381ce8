#include "cases.h"

#include "event_tries.h"
#include "number.h"

enum {
    RANDOM_STRINGS = 500,
    DAMAGED_EVENTS = 500,
    PADDED_EVENTS = 80,
    RANDOM_WRITES = 400
};

static const uint64_t with_arguments[] = {EVENT_TX_OPEN, EVENT_OPEN_RECEIVED, EVENT_OPEN_REJECT};
enum { WITH_ARGUMENTS = sizeof with_arguments / sizeof with_arguments[0] };

static struct phy_event random_valid_event(struct case_file *file)
{
    if (case_random_one_in(file, 4)) {
        return plain_event(EVENT_AIP + case_random_below(file, 6));
    }
    return random_event_of(file, case_random_of(file, with_arguments, WITH_ARGUMENTS));
}

/* Among the listed events a stamp stands without its counter, as a phy would have it. */
static struct byte_string listed_string(const struct phy_event *event, size_t groups)
{
    struct byte_string string = {.length = 0};

    if (event->code != EVENT_TIME_STAMP) {
        return event_string(event, groups);
    }
    add_padded(&string, event->code, groups);
    return string;
}

/* ---- Reading ---- */

static void read_listed_events(struct case_file *file)
{
    struct phy_event events[MOST_LISTED_EVENTS];
    size_t count = list_events(events);

    for (size_t i = 0; i < count; i++) {
        struct byte_string string = listed_string(&events[i], SHORTEST);

        read_cut_everywhere(file, string);
        read_with_tails(file, &string);
        read_at_every_place(file, &string);
    }
}

static void read_empty(struct case_file *file)
{
    const struct byte_string empty = {.length = 0};

    read_past_the_end(file, &empty);
}

/* ---- Reading padded numbers ---- */

static void read_padded_at_every_number(struct case_file *file)
{
    for (uint64_t code = EVENT_TX_OPEN; code <= EVENT_PHY_DISABLED; code++) {
        struct phy_event event = sample_event(code);

        for (size_t which = 0; which < event_numbers(&event); which++) {
            read_padded_at(file, &event, which);
        }
    }
}

static void read_all_numbers_padded(struct case_file *file)
{
    for (size_t i = 0; i < WITH_ARGUMENTS; i++) {
        struct phy_event event = sample_event(with_arguments[i]);

        for (size_t groups = 2; groups <= NUMBER_MOST_BYTES; groups++) {
            struct byte_string string = event_string(&event, groups);

            read_with_tails(file, &string);
        }

        struct byte_string narrow = event_string(&event, 3);

        read_at_every_place(file, &narrow);
        read_cut_everywhere(file, event_string(&event, NUMBER_MOST_BYTES));
    }
}

/* Some of them are refused, and the place of their first byte is not 0. */
static void read_listed_events_padded(struct case_file *file)
{
    const struct phy_event tick = plain_event(EVENT_TICK);
    struct phy_event events[MOST_LISTED_EVENTS];
    size_t count = list_events(events);

    for (size_t i = 0; i < count; i++) {
        struct byte_string string = event_string(&tick, NUMBER_MOST_BYTES);
        struct byte_string event = listed_string(&events[i], NUMBER_MOST_BYTES);

        add_string(&string, &event);
        read_event_case(file, NUMBER_MOST_BYTES, &string);
    }
}

static void read_padded(struct case_file *file)
{
    read_padded_at_every_number(file);
    read_all_numbers_padded(file);
    read_listed_events_padded(file);
}

/* ---- Reading numbers that are wrong, at every number of an event ---- */

static void read_wrong_numbers(struct case_file *file)
{
    for (uint64_t code = EVENT_TX_OPEN; code <= EVENT_PHY_DISABLED; code++) {
        struct phy_event event = sample_event(code);

        for (size_t which = 0; which < event_numbers(&event); which++) {
            read_tenth_bytes(file, &event, which);
            read_unfinished(file, &event, which);
        }
    }
}

static void read_all_two_faults(struct case_file *file)
{
    for (size_t i = 0; i < WITH_ARGUMENTS; i++) {
        struct phy_event event = sample_event(with_arguments[i]);

        for (size_t second = 1; second < event_numbers(&event); second++) {
            for (size_t first = 0; first < second; first++) {
                read_two_faults(file, &event, first, second);
                read_padded_and_fault(file, &event, first, second);
            }
        }
    }
}

/* ---- Reading at random ---- */

/* Mostly codes, or few strings would come as far as an argument. */
static void read_random_string(struct case_file *file)
{
    struct byte_string string = {.length = 0};
    size_t length = (size_t)case_random_below(file, 16);
    size_t place = (size_t)case_random_below(file, 4);

    while (string.length < length) {
        uint8_t byte = (uint8_t)case_random(file);

        add_byte(&string, case_random_one_in(file, 6) ? byte : byte & 0x0F);
    }
    read_event_case(file, place, &string);
}

static void read_damaged(struct case_file *file)
{
    struct phy_event event = random_valid_event(file);
    struct byte_string string = event_string(&event, SHORTEST);

    random_damage(file, &string);
    read_event_case(file, 0, &string);
}

static void read_randomly_padded(struct case_file *file)
{
    struct byte_string string = {.length = 0};
    struct phy_event event = random_valid_event(file);

    add_randomly_padded_event(file, &string, &event, NUMBER_MOST_BYTES);
    read_event_case(file, 0, &string);
    random_damage(file, &string);
    read_event_case(file, 0, &string);
}

void make_read_event_cases(struct case_file *file)
{
    read_empty(file);
    read_listed_events(file);
    read_padded(file);
    read_wrong_numbers(file);
    read_all_two_faults(file);
    for (int i = 0; i < RANDOM_STRINGS; i++) {
        read_random_string(file);
    }
    for (int i = 0; i < DAMAGED_EVENTS; i++) {
        read_damaged(file);
    }
    for (int i = 0; i < PADDED_EVENTS; i++) {
        read_randomly_padded(file);
    }
}

/* ---- Writing ---- */

static void write_listed_events(struct case_file *file)
{
    struct phy_event events[MOST_LISTED_EVENTS];
    size_t count = list_events(events);

    for (size_t i = 0; i < count; i++) {
        size_t needed = listed_string(&events[i], SHORTEST).length;

        write_around_the_fit(file, &events[i], 0, needed);
        write_around_the_fit(file, &events[i], 3, needed);
        write_outside(file, &events[i], needed);
    }
}

static void write_in_short_buffers(struct case_file *file)
{
    for (size_t i = 0; i < WITH_ARGUMENTS; i++) {
        struct phy_event event = sample_event(with_arguments[i]);

        event.argument[0] = phy_argument_fits(event.code, 0, UINT64_MAX) ? UINT64_MAX : 0;
        write_in_every_short_buffer(file, &event);
    }
}

static void write_all_arguments_lacked(struct case_file *file)
{
    for (uint64_t code = EVENT_TX_OPEN; code <= EVENT_PHY_DISABLED; code++) {
        struct phy_event event = sample_event(code);

        write_arguments_lacked(file, &event);
    }
}

static void write_in_the_longest_buffer(struct case_file *file)
{
    size_t needed = event_string(&widest_tx_open, SHORTEST).length;

    for (size_t place = MOST_BUFFER - needed - 1; place <= MOST_BUFFER - needed + 1; place++) {
        write_event_case(file, &widest_tx_open, place, MOST_BUFFER);
    }
}

static void write_random(struct case_file *file)
{
    struct phy_event event = random_valid_event(file);
    size_t place = (size_t)case_random_below(file, 20);

    if (case_random_one_in(file, 8)) {
        uint64_t which = case_random_below(file, PHY_ARGUMENTS);

        event.argument[which] = 1 + case_random_below(file, 300);
    }
    write_event_case(file, &event, place, (size_t)case_random_below(file, 36));
}

void make_write_event_cases(struct case_file *file)
{
    write_listed_events(file);
    write_in_short_buffers(file);
    write_all_arguments_lacked(file);
    write_in_the_longest_buffer(file);
    for (int i = 0; i < RANDOM_WRITES; i++) {
        write_random(file);
    }
}
