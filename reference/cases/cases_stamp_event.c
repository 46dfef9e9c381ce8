#include "cases.h"

#include "event_tries.h"
#include "number.h"
#include "stamp_samples.h"

enum {
    RANDOM_STRINGS = 150,
    DAMAGED_STAMPS = 150,
    PADDED_STAMPS = 40,
    RANDOM_WRITES = 100,
    COUNTER_NUMBER = 1,
    STAMP_NUMBERS = 2
};

/* ---- Reading ---- */

static void read_stamp(struct case_file *file, uint64_t counter)
{
    struct phy_event stamp = stamp_at(counter);
    struct byte_string string = event_string(&stamp, SHORTEST);

    read_cut_everywhere(file, string);
    read_with_tails(file, &string);
    read_at_every_place(file, &string);
    for (size_t which = 0; which < STAMP_NUMBERS; which++) {
        read_padded_at(file, &stamp, which);
    }
}

static void read_all_counters(struct case_file *file)
{
    for (size_t i = 0; i < counter_count; i++) {
        read_stamp(file, counters[i]);
    }
    for (size_t i = 0; i < bad_counter_count; i++) {
        read_stamp(file, bad_counters[i]);
    }
}

/* Both numbers at once. */
static void read_both_padded(struct case_file *file, uint64_t counter)
{
    struct phy_event stamp = stamp_at(counter);
    struct byte_string narrow = event_string(&stamp, 3);

    for (size_t groups = 2; groups <= NUMBER_MOST_BYTES; groups++) {
        struct byte_string string = event_string(&stamp, groups);

        read_with_tails(file, &string);
    }
    read_at_every_place(file, &narrow);
    read_cut_everywhere(file, event_string(&stamp, NUMBER_MOST_BYTES));
}

static void read_wrong_numbers(struct case_file *file)
{
    const struct phy_event stamp = stamp_at(300);

    for (size_t which = 0; which < STAMP_NUMBERS; which++) {
        read_tenth_bytes(file, &stamp, which);
        read_unfinished(file, &stamp, which);
    }
    read_two_faults(file, &stamp, 0, COUNTER_NUMBER);
    read_padded_and_fault(file, &stamp, 0, COUNTER_NUMBER);
}

/* Bytes behind the code that mostly promise another, so that some counters are wide and some too large. */
static void read_random_string(struct case_file *file)
{
    struct byte_string string = {.length = 0};
    size_t length = (size_t)case_random_below(file, 14);

    add_byte(&string, EVENT_TIME_STAMP);
    for (size_t i = 0; i < length; i++) {
        uint8_t byte = (uint8_t)case_random(file);

        add_byte(&string, case_random_one_in(file, 5) ? byte & 0x7F : byte | 0x80);
    }
    read_event_case(file, 0, &string);
}

static void read_damaged(struct case_file *file)
{
    struct phy_event stamp = stamp_at(random_counter(file));
    struct byte_string string = event_string(&stamp, SHORTEST);

    random_damage(file, &string);
    read_event_case(file, 0, &string);
}

static void read_randomly_padded(struct case_file *file)
{
    struct phy_event stamp = stamp_at(random_counter(file));
    struct byte_string string = {.length = 0};

    add_randomly_padded_event(file, &string, &stamp, NUMBER_MOST_BYTES);
    read_event_case(file, 0, &string);
    random_damage(file, &string);
    read_event_case(file, 0, &string);
}

void make_read_stamp_cases(struct case_file *file)
{
    read_all_counters(file);
    read_both_padded(file, 5);
    read_both_padded(file, BAY_MOST_COUNTER);
    read_both_padded(file, PAST_32_BITS);
    read_wrong_numbers(file);
    for (int i = 0; i < RANDOM_STRINGS; i++) {
        read_random_string(file);
    }
    for (int i = 0; i < DAMAGED_STAMPS; i++) {
        read_damaged(file);
    }
    for (int i = 0; i < PADDED_STAMPS; i++) {
        read_randomly_padded(file);
    }
}

/* ---- Writing ---- */

static void write_stamp(struct case_file *file, uint64_t counter)
{
    struct phy_event stamp = stamp_at(counter);
    size_t needed = event_string(&stamp, SHORTEST).length;

    write_around_the_fit(file, &stamp, 0, needed);
    write_around_the_fit(file, &stamp, 3, needed);
    write_outside(file, &stamp, needed);
}

static void write_all_counters(struct case_file *file)
{
    for (size_t i = 0; i < counter_count; i++) {
        write_stamp(file, counters[i]);
    }
    for (size_t i = 0; i < bad_counter_count; i++) {
        write_stamp(file, bad_counters[i]);
    }
}

/* In a good counter and a bad one; then in all arguments at once. */
static void write_other_arguments(struct case_file *file)
{
    static const uint64_t tried[] = {0, 300, BAY_MOST_COUNTER, PAST_32_BITS};
    static const struct phy_event all_set = {EVENT_TIME_STAMP, {1, 1, 1, 1, 1, 1}};

    for (size_t i = 0; i < sizeof tried / sizeof tried[0]; i++) {
        struct phy_event stamp = stamp_at(tried[i]);

        write_arguments_lacked(file, &stamp);
    }
    write_event_case(file, &all_set, 0, MOST_BUFFER);
}

static void write_in_the_longest_buffer(struct case_file *file)
{
    struct phy_event stamp = stamp_at(BAY_MOST_COUNTER);
    size_t needed = event_string(&stamp, SHORTEST).length;

    for (size_t place = MOST_BUFFER - needed - 1; place <= MOST_BUFFER - needed + 1; place++) {
        write_event_case(file, &stamp, place, MOST_BUFFER);
    }
}

static void write_random(struct case_file *file)
{
    struct phy_event stamp = stamp_at(random_counter(file));
    size_t place = (size_t)case_random_below(file, 20);

    if (case_random_one_in(file, 8)) {
        uint64_t which = case_random_below(file, PHY_ARGUMENTS);

        stamp.argument[which] = case_random(file);
    }
    write_event_case(file, &stamp, place, (size_t)case_random_below(file, 30));
}

void make_write_stamp_cases(struct case_file *file)
{
    const struct phy_event widest = stamp_at(BAY_MOST_COUNTER);

    write_all_counters(file);
    write_in_every_short_buffer(file, &widest);
    write_other_arguments(file);
    write_in_the_longest_buffer(file);
    for (int i = 0; i < RANDOM_WRITES; i++) {
        write_random(file);
    }
}
