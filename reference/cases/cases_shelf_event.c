#include "cases.h"

#include "case_trace.h"
#include "number.h"
#include "port_box.h"
#include "shelf.h"
#include "shelf_samples.h"
#include "stamp_samples.h"

#include <string.h>

enum {
    MOST_BUFFER = 64,
    LAST_CODE = 17,
    RANDOM_STRINGS = 40,
    DAMAGED_EVENTS = 60,
    RANDOM_WRITES = 30
};

/* The ends of the row and of its limit, what lies about 127, numbers whose low bits are those of such, and the ends of
 * groups. */
static const uint64_t numbers[] = {
    0, 1, 7, 8, 126, 127, 128, 200, 255, PAST_8_BITS + 127, 16383, 16384, PAST_32_BITS, PAST_32_BITS + 127,
    UINT64_C(1) << 63, UINT64_MAX
};
enum { NUMBERS = sizeof numbers / sizeof numbers[0] };

static const struct phy_event tick = {.code = EVENT_TICK};
static const struct phy_event widest_stamp = {EVENT_TIME_STAMP, {BAY_MOST_COUNTER}};

static struct byte_string shelf_string(struct shelf_event event)
{
    struct byte_string string = {.length = 0};

    add_shelf_event(&string, event, SHORTEST);
    return string;
}

/* ---- Reading ---- */

static void read_case(struct case_file *file, size_t place, const struct byte_string *string)
{
    struct shelf_read got = shelf_read(string->bytes, string->length, place);
    uint64_t line[5 + PHY_ARGUMENTS] = {
        got.found, got.refusal, got.next, got.event.number, got.event.event.code
    };

    memcpy(line + 5, got.event.event.argument, sizeof got.event.event.argument);
    case_number(file, KIND_READ_SHELF_EVENT);
    case_number(file, place);
    case_bytes(file, string->bytes, string->length);
    expect_line(file, KIND_READ_SHELF_EVENT, line, sizeof line / sizeof line[0]);
}

static void read_past_the_end(struct case_file *file, const struct byte_string *string)
{
    const size_t places[] = {
        string->length, string->length + 1, (size_t)1 << 32, SIZE_MAX / 2 + 1, SIZE_MAX - 1, SIZE_MAX
    };

    for (size_t i = 0; i < sizeof places / sizeof places[0]; i++) {
        read_case(file, places[i], string);
    }
}

static void read_numbers(struct case_file *file)
{
    for (size_t i = 0; i < NUMBERS; i++) {
        struct byte_string string = shelf_string(to_phy(numbers[i], tick));

        read_case(file, 0, &string);
    }
}

/* To a phy and to the port itself: which of them may go there is not the reader's to say. */
static void read_codes(struct case_file *file)
{
    for (uint64_t code = 0; code <= LAST_CODE; code++) {
        struct byte_string to_one = shelf_string(to_phy(code, sample_event(code)));
        struct byte_string to_all = shelf_string(to_port(sample_event(code)));

        read_case(file, 0, &to_one);
        read_case(file, 0, &to_all);
    }
}

static void read_cut_everywhere(struct case_file *file, struct byte_string string)
{
    size_t whole = string.length;

    for (string.length = 0; string.length <= whole; string.length++) {
        read_case(file, 0, &string);
    }
}

/* An event before and half a number behind: every place has its own story. */
static void read_at_every_place(struct case_file *file, struct shelf_event event)
{
    struct byte_string string = shelf_string(to_phy(2, tick));

    add_shelf_event(&string, event, SHORTEST);
    add_byte(&string, 0x80);
    for (size_t place = 0; place < string.length; place++) {
        read_case(file, place, &string);
    }
    read_past_the_end(file, &string);
}

/* The number alone is cut, however wide it is; with an event behind it, it is read. */
static void read_padded_numbers(struct case_file *file, uint64_t number)
{
    for (size_t groups = number_length(number); groups <= NUMBER_MOST_BYTES; groups++) {
        struct byte_string string = {.length = 0};

        add_padded(&string, number, groups);
        read_case(file, 0, &string);
        add_event(&string, &tick);
        read_case(file, 0, &string);
    }
}

static void read_tenth_bytes(struct case_file *file)
{
    static const uint8_t tenths[] = {0x00, 0x01, 0x02, 0x7F, 0x80, 0x81, 0xFF};
    static const uint8_t fills[] = {0x80, 0xFF};

    for (size_t i = 0; i < sizeof tenths; i++) {
        for (size_t k = 0; k < sizeof fills; k++) {
            struct byte_string string = {.length = 0};

            add_fill(&string, fills[k], NUMBER_MOST_BYTES - 1);
            add_byte(&string, tenths[i]);
            add_event(&string, &tick);
            read_case(file, 0, &string);
        }
    }
}

/* Not from the first byte on: the place of the fault is that of the number, not of the code. */
static void read_fault(
    struct case_file *file, const struct phy_event *event, size_t which, enum number_fault fault)
{
    struct byte_string string = shelf_string(to_phy(1, tick));
    size_t place = string.length;

    add_padded(&string, 7, 3);
    add_faulty_event(&string, event, which, fault);
    read_case(file, place, &string);
}

static void read_faults(struct case_file *file, const struct phy_event *event)
{
    for (size_t which = 0; which < event_numbers(event); which++) {
        for (enum number_fault fault = FAULT_OUT_OF_RANGE; fault < NUMBER_FAULTS; fault++) {
            read_fault(file, event, which, fault);
        }
    }
}

/* The phy's number comes first, so its fault is the answer whatever the code is. */
static void read_two_faults(struct case_file *file)
{
    for (enum number_fault fault = FAULT_OUT_OF_RANGE; fault < NUMBER_FAULTS; fault++) {
        struct byte_string string = {.length = 0};

        add_fault(&string, FAULT_TOO_LARGE);
        add_fault(&string, fault);
        read_case(file, 0, &string);
        string.length = 0;
        add_fault(&string, FAULT_OUT_OF_RANGE);
        add_fault(&string, fault);
        read_case(file, 0, &string);
    }
}

static struct shelf_event random_valid_event(struct case_file *file)
{
    const struct port_box box = fresh_box(1);

    return random_shelf_event(file, &box, 2);
}

static void read_random_string(struct case_file *file)
{
    struct byte_string string = {.length = 0};
    size_t length = (size_t)case_random_below(file, 14);
    size_t place = (size_t)case_random_below(file, 3);

    while (string.length < length) {
        uint8_t byte = (uint8_t)case_random(file);

        add_byte(&string, case_random_one_in(file, 6) ? byte : byte & 0x0F);
    }
    read_case(file, place, &string);
}

static void read_damaged(struct case_file *file)
{
    struct shelf_event event = random_valid_event(file);
    struct byte_string string = {.length = 0};

    add_randomly_padded(file, &string, event.number, 3);
    add_randomly_padded_event(file, &string, &event.event, 2);
    random_damage(file, &string);
    read_case(file, 0, &string);
}

void make_read_shelf_event_cases(struct case_file *file)
{
    const struct byte_string empty = {.length = 0};
    const struct phy_event tx_open = sample_event(EVENT_TX_OPEN);
    const struct phy_event open_received = sample_event(EVENT_OPEN_RECEIVED);

    read_past_the_end(file, &empty);
    read_numbers(file);
    read_codes(file);
    read_cut_everywhere(file, shelf_string(to_phy(300, tx_open)));
    read_cut_everywhere(file, shelf_string(to_phy(UINT64_MAX, widest_stamp)));
    read_at_every_place(file, to_phy(300, tx_open));
    read_at_every_place(file, to_port(widest_stamp));
    read_padded_numbers(file, 0);
    read_padded_numbers(file, THE_PORT_ITSELF);
    read_padded_numbers(file, UINT64_MAX);
    read_tenth_bytes(file);
    read_faults(file, &tx_open);
    read_faults(file, &open_received);
    read_faults(file, &widest_stamp);
    read_two_faults(file);
    for (int i = 0; i < RANDOM_STRINGS; i++) {
        read_random_string(file);
    }
    for (int i = 0; i < DAMAGED_EVENTS; i++) {
        read_damaged(file);
    }
}

/* ---- Writing ---- */

static void write_case(struct case_file *file, struct shelf_event event, size_t place, size_t length)
{
    uint8_t bytes[MOST_BUFFER];
    uint64_t line[2 + MOST_BUFFER];

    /* No two alike and none of them a code, so a write too many shows. */
    for (size_t i = 0; i < length; i++) {
        bytes[i] = (uint8_t)(0xF1 - i);
    }
    case_number(file, KIND_WRITE_SHELF_EVENT);
    case_number(file, place);
    case_number(file, event.number);
    case_number(file, event.event.code);
    case_numbers(file, event.event.argument, PHY_ARGUMENTS);
    case_bytes(file, bytes, length);

    struct event_written written = shelf_write(&event, bytes, length, place);

    line[0] = written.refusal;
    line[1] = written.length;
    for (size_t i = 0; i < length; i++) {
        line[2 + i] = bytes[i];
    }
    expect_line(file, KIND_WRITE_SHELF_EVENT, line, 2 + length);
}

static void write_around_the_fit(struct case_file *file, struct shelf_event event, size_t place)
{
    size_t fit = place + shelf_string(event).length;

    write_case(file, event, place, fit - 1);
    write_case(file, event, place, fit);
    write_case(file, event, place, fit + 2);
}

static void write_numbers(struct case_file *file)
{
    for (size_t i = 0; i < NUMBERS; i++) {
        write_around_the_fit(file, to_phy(numbers[i], tick), i % 2 == 0 ? 0 : 3);
    }
}

/* Unknown codes are among them, and every other code with what it carries. */
static void write_codes(struct case_file *file)
{
    for (uint64_t code = 0; code <= LAST_CODE; code++) {
        uint64_t number = code % 2 == 0 ? THE_PORT_ITSELF : code;
        size_t needed = shelf_string(to_phy(number, sample_event(code))).length;

        write_case(file, to_phy(number, sample_event(code)), 1, needed + 2);
    }
    write_around_the_fit(file, to_phy(UINT64_MAX, widest_tx_open), 0);
    write_around_the_fit(file, to_phy(UINT64_MAX, widest_stamp), 2);
}

/* The number would fit where the whole event does not. */
static void write_in_every_short_buffer(struct case_file *file, struct shelf_event event)
{
    size_t needed = shelf_string(event).length;

    for (size_t length = 0; length <= needed; length++) {
        write_case(file, event, 0, length);
        write_case(file, event, 2, length + 1);
    }
}

/* Among them the places whose sum with the event's length goes round to 0 and to 1. */
static void write_outside(struct case_file *file, struct shelf_event event)
{
    size_t needed = shelf_string(event).length;
    const size_t places[] = {
        5, 6, SIZE_MAX / 2 + 1, SIZE_MAX - (needed - 1), SIZE_MAX - (needed - 2), SIZE_MAX - 1, SIZE_MAX
    };

    for (size_t i = 0; i < sizeof places / sizeof places[0]; i++) {
        write_case(file, event, places[i], 5);
        write_case(file, event, places[i], 0);
    }
}

/* With room and without: the event is judged first. */
static void write_bad_event(struct case_file *file, struct phy_event event)
{
    write_case(file, to_phy(1, event), 0, 0);
    write_case(file, to_phy(UINT64_MAX, event), SIZE_MAX, 2);
    write_case(file, to_port(event), 0, 24);
}

static void write_bad_events(struct case_file *file)
{
    struct phy_event slow = sample_event(EVENT_TX_OPEN);
    struct phy_event tick_with_argument = tick;

    slow.argument[2] = RATE_1_5_GBPS - 1;
    tick_with_argument.argument[5] = 1;
    write_bad_event(file, slow);
    write_bad_event(file, tick_with_argument);
    write_bad_event(file, plain_event(0));
    write_bad_event(file, plain_event(LAST_CODE));
    write_bad_event(file, plain_event(PAST_8_BITS + EVENT_TICK));
    write_bad_event(file, stamp_at(PAST_32_BITS));
}

static void write_random(struct case_file *file)
{
    struct shelf_event event = random_valid_event(file);
    size_t place = (size_t)case_random_below(file, 6);

    if (case_random_one_in(file, 8)) {
        uint64_t which = case_random_below(file, PHY_ARGUMENTS);

        event.event.argument[which] = 1 + case_random_below(file, 300);
    }
    write_case(file, event, place, (size_t)case_random_below(file, 24));
}

void make_write_shelf_event_cases(struct case_file *file)
{
    write_numbers(file);
    write_codes(file);
    write_in_every_short_buffer(file, to_phy(300, sample_event(EVENT_OPEN_RECEIVED)));
    write_in_every_short_buffer(file, to_port(stamp_at(16384)));
    write_outside(file, to_phy(3, sample_event(EVENT_OPEN_RECEIVED)));
    write_bad_events(file);
    for (int i = 0; i < RANDOM_WRITES; i++) {
        write_random(file);
    }
}
