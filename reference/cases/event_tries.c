#include "event_tries.h"

#include "number.h"

_Static_assert(SIZE_MAX == UINT64_MAX, "places up to 2^64-1 are part of the cases");

enum { PAST_END = 3 };

/* All with the high bit set: no bits of the group, and all. */
static const uint8_t fills[] = {0x80, 0xFF};

static const size_t far_places[] = {
    (size_t)1 << 32, SIZE_MAX / 2, SIZE_MAX / 2 + 1, SIZE_MAX - 1, SIZE_MAX
};

/* ---- Reading ---- */

void read_event_case(struct case_file *file, size_t place, const struct byte_string *string)
{
    struct event_read got = event_read(string->bytes, string->length, place);

    case_number(file, KIND_READ_EVENT);
    case_number(file, place);
    case_bytes(file, string->bytes, string->length);
    expect_event_read(file, KIND_READ_EVENT, &got);
}

void read_past_the_end(struct case_file *file, const struct byte_string *string)
{
    for (size_t past = 0; past <= PAST_END; past++) {
        read_event_case(file, string->length + past, string);
    }
    for (size_t i = 0; i < sizeof far_places / sizeof far_places[0]; i++) {
        read_event_case(file, far_places[i], string);
    }
}

void read_cut_everywhere(struct case_file *file, struct byte_string event)
{
    size_t whole = event.length;

    for (event.length = 0; event.length <= whole; event.length++) {
        read_event_case(file, 0, &event);
    }
}

void read_with_tails(struct case_file *file, const struct byte_string *event)
{
    static const uint8_t tails[] = {0x00, 0x01, 0x80, 0xFF};

    for (size_t i = 0; i < sizeof tails; i++) {
        struct byte_string string = *event;

        add_byte(&string, tails[i]);
        read_event_case(file, 0, &string);
    }
}

/* A whole event and half a number before, a wrong and a cut event behind: every place has its own story. */
void read_at_every_place(struct case_file *file, const struct byte_string *event)
{
    struct byte_string string = {.length = 0};

    add_byte(&string, EVENT_TICK);
    add_byte(&string, 0x80 | EVENT_TICK);
    add_string(&string, event);
    add_byte(&string, 0x00);
    add_byte(&string, 0xFF);
    for (size_t place = 0; place < string.length; place++) {
        read_event_case(file, place, &string);
    }
    read_past_the_end(file, &string);
}

void read_padded_at(struct case_file *file, const struct phy_event *event, size_t which)
{
    size_t needed = number_length(event_number(event, which));

    for (size_t groups = needed + 1; groups <= NUMBER_MOST_BYTES; groups++) {
        struct byte_string string = {.length = 0};

        add_event_padded_at(&string, event, which, groups);
        read_event_case(file, 0, &string);
    }
}

/* With the rest of the event behind it, and with nothing. */
static void read_tenth_byte(
    struct case_file *file, const struct phy_event *event, size_t which, uint8_t tenth)
{
    for (size_t i = 0; i < sizeof fills; i++) {
        struct byte_string string = {.length = 0};

        add_event_numbers(&string, event, 0, which);
        add_fill(&string, fills[i], NUMBER_MOST_BYTES - 1);
        add_byte(&string, tenth);
        read_event_case(file, 0, &string);
        add_event_numbers(&string, event, which + 1, event_numbers(event));
        read_event_case(file, 0, &string);
    }
}

void read_tenth_bytes(struct case_file *file, const struct phy_event *event, size_t which)
{
    static const uint8_t tenths[] = {0x00, 0x01, 0x02, 0x03, 0x40, 0x7F, 0x80, 0x81, 0xFE, 0xFF};

    for (size_t i = 0; i < sizeof tenths; i++) {
        read_tenth_byte(file, event, which, tenths[i]);
    }
}

void read_unfinished(struct case_file *file, const struct phy_event *event, size_t which)
{
    for (size_t i = 0; i < sizeof fills; i++) {
        for (size_t filled = 1; filled < NUMBER_MOST_BYTES; filled++) {
            struct byte_string string = {.length = 0};

            add_event_numbers(&string, event, 0, which);
            add_fill(&string, fills[i], filled);
            read_event_case(file, 0, &string);
        }
    }
}

/* The string has the event up to the number that is to be wrong; what is cut has nothing behind it. */
static void read_with_fault(
    struct case_file *file, struct byte_string string, const struct phy_event *event, size_t which,
    enum number_fault fault)
{
    add_fault_in(&string, event, which, fault);
    if (fault < FAULT_CUT) {
        add_event_numbers(&string, event, which + 1, event_numbers(event));
    }
    read_event_case(file, 0, &string);
}

void read_padded_and_fault(
    struct case_file *file, const struct phy_event *event, size_t first, size_t second)
{
    for (enum number_fault fault = FAULT_OUT_OF_RANGE; fault < NUMBER_FAULTS; fault++) {
        struct byte_string string = {.length = 0};

        add_event_numbers(&string, event, 0, first);
        add_padded(&string, event_number(event, first), NUMBER_MOST_BYTES);
        add_event_numbers(&string, event, first + 1, second);
        read_with_fault(file, string, event, second, fault);
    }
}

void read_two_faults(struct case_file *file, const struct phy_event *event, size_t first, size_t second)
{
    for (enum number_fault left = FAULT_OUT_OF_RANGE; left < FAULT_CUT; left++) {
        for (enum number_fault right = FAULT_OUT_OF_RANGE; right < NUMBER_FAULTS; right++) {
            struct byte_string string = {.length = 0};

            add_event_numbers(&string, event, 0, first);
            add_fault_in(&string, event, first, left);
            add_event_numbers(&string, event, first + 1, second);
            read_with_fault(file, string, event, second, right);
        }
    }
}

/* ---- Writing ---- */

void write_event_case(struct case_file *file, const struct phy_event *event, size_t place, size_t length)
{
    uint8_t bytes[MOST_BUFFER];
    uint64_t line[2 + MOST_BUFFER];

    /* No two alike and none of them a code, so a write too many shows. */
    for (size_t i = 0; i < length; i++) {
        bytes[i] = (uint8_t)(0xF1 - i);
    }
    case_number(file, KIND_WRITE_EVENT);
    case_number(file, place);
    case_number(file, event->code);
    case_numbers(file, event->argument, PHY_ARGUMENTS);
    case_bytes(file, bytes, length);

    struct event_written written = event_write(event, bytes, length, place);

    line[0] = written.refusal;
    line[1] = written.length;
    for (size_t i = 0; i < length; i++) {
        line[2 + i] = bytes[i];
    }
    expect_line(file, KIND_WRITE_EVENT, line, 2 + length);
}

void write_around_the_fit(struct case_file *file, const struct phy_event *event, size_t place, size_t needed)
{
    size_t fit = place + needed;

    write_event_case(file, event, place, fit - 1);
    write_event_case(file, event, place, fit);
    write_event_case(file, event, place, fit + 1);
    write_event_case(file, event, place, fit + 6);
}

/* Among them the places whose sum with the event's length goes round to 0 and to 1. */
void write_outside(struct case_file *file, const struct phy_event *event, size_t needed)
{
    static const size_t lengths[] = {0, 1, 30};

    for (size_t i = 0; i < sizeof lengths / sizeof lengths[0]; i++) {
        write_event_case(file, event, lengths[i], lengths[i]);
        write_event_case(file, event, lengths[i] + 1, lengths[i]);
        write_event_case(file, event, SIZE_MAX - (needed - 1), lengths[i]);
        write_event_case(file, event, SIZE_MAX, lengths[i]);
    }
    if (needed > 1) {
        write_event_case(file, event, SIZE_MAX - (needed - 2), needed + 2);
    }
    write_event_case(file, event, 0, 0);
    write_event_case(file, event, SIZE_MAX / 2 + 1, needed);
}

/* Its first numbers would fit where the whole event does not. */
void write_in_every_short_buffer(struct case_file *file, const struct phy_event *event)
{
    size_t needed = event_string(event, SHORTEST).length;

    for (size_t length = 0; length <= needed + 3; length++) {
        write_event_case(file, event, 0, length);
        write_event_case(file, event, 2, length);
    }
}

/* With room and without: the event is judged first. */
void write_arguments_lacked(struct case_file *file, const struct phy_event *event)
{
    for (size_t which = bay_argument_count(event->code); which < PHY_ARGUMENTS; which++) {
        struct phy_event changed = *event;

        changed.argument[which] = which % 2 == 0 ? 1 : UINT64_MAX;
        write_event_case(file, &changed, 0, 0);
        write_event_case(file, &changed, 0, 20);
        write_event_case(file, &changed, SIZE_MAX, 4);
    }
}
