#include "case_trace.h"

#include "number.h"

#include <assert.h>
#include <string.h>

enum {
    ANOTHER_FOLLOWS = 0x80,
    ALL_BITS = 0xFF,
    TENTH_TOO_LARGE = 2,
    PADDED_GROUPS = 5,
    PADDING = 2,
    /* No argument but an address and a counter takes it, and it is no code. */
    OUT_OF_RANGE = 70000
};

/* ---- Strings ---- */

void add_byte(struct byte_string *string, uint8_t byte)
{
    assert(string->length < STRING_ROOM);
    string->bytes[string->length] = byte;
    string->length++;
}

void add_fill(struct byte_string *string, uint8_t byte, size_t count)
{
    for (size_t i = 0; i < count; i++) {
        add_byte(string, byte);
    }
}

void add_string(struct byte_string *string, const struct byte_string *tail)
{
    assert(tail->length <= STRING_ROOM - string->length);
    memcpy(string->bytes + string->length, tail->bytes, tail->length);
    string->length += tail->length;
}

static void add_number(struct byte_string *string, uint64_t value)
{
    struct number_written written = number_write(value, string->bytes, STRING_ROOM, string->length);

    assert(written.length > 0);
    string->length += written.length;
}

void add_padded(struct byte_string *string, uint64_t value, size_t groups)
{
    size_t needed = number_length(value);

    assert(groups >= needed && groups <= NUMBER_MOST_BYTES);
    add_number(string, value);
    for (size_t i = needed; i < groups; i++) {
        string->bytes[string->length - 1] |= ANOTHER_FOLLOWS;
        add_byte(string, 0);
    }
}

void add_randomly_padded(struct case_file *file, struct byte_string *string, uint64_t value, size_t most)
{
    size_t groups = number_length(value);

    if (groups < most) {
        groups += (size_t)case_random_below(file, most - groups + 1);
    }
    add_padded(string, value, groups);
}

static void add_fault_of(struct byte_string *string, enum number_fault fault, uint64_t out_of_range)
{
    switch (fault) {
    case FAULT_OUT_OF_RANGE:
        add_number(string, out_of_range);
        return;
    case FAULT_OUT_OF_RANGE_PADDED:
        add_padded(string, out_of_range, number_length(out_of_range) + PADDING);
        return;
    case FAULT_TOO_LARGE:
        add_fill(string, ALL_BITS, NUMBER_MOST_BYTES - 1);
        add_byte(string, TENTH_TOO_LARGE);
        return;
    case FAULT_CUT:
        add_byte(string, ALL_BITS);
        return;
    case FAULT_CUT_IN_PADDING:
    default:
        add_padded(string, 1, PADDED_GROUPS);
        string->length--;
        return;
    }
}

void add_fault(struct byte_string *string, enum number_fault fault)
{
    add_fault_of(string, fault, OUT_OF_RANGE);
}

size_t event_numbers(const struct phy_event *event)
{
    return 1 + bay_argument_count(event->code);
}

uint64_t event_number(const struct phy_event *event, size_t which)
{
    return which == 0 ? event->code : event->argument[which - 1];
}

void add_event_numbers(struct byte_string *string, const struct phy_event *event, size_t from, size_t to)
{
    for (size_t i = from; i < to; i++) {
        add_number(string, event_number(event, i));
    }
}

void add_fault_in(
    struct byte_string *string, const struct phy_event *event, size_t which, enum number_fault fault)
{
    bool is_counter = event->code == EVENT_TIME_STAMP && which == 1;

    add_fault_of(string, fault, is_counter ? PAST_32_BITS : OUT_OF_RANGE);
}

void add_faulty_event(
    struct byte_string *string, const struct phy_event *event, size_t which, enum number_fault fault)
{
    add_event_numbers(string, event, 0, which);
    add_fault_in(string, event, which, fault);
    if (fault < FAULT_CUT) {
        add_event_numbers(string, event, which + 1, event_numbers(event));
    }
}

void add_event(struct byte_string *string, const struct phy_event *event)
{
    add_event_numbers(string, event, 0, event_numbers(event));
}

void add_padded_event(struct byte_string *string, const struct phy_event *event, size_t groups)
{
    for (size_t i = 0; i < event_numbers(event); i++) {
        uint64_t value = event_number(event, i);
        size_t needed = number_length(value);

        add_padded(string, value, groups > needed ? groups : needed);
    }
}

struct byte_string event_string(const struct phy_event *event, size_t groups)
{
    struct byte_string string = {.length = 0};

    add_padded_event(&string, event, groups);
    return string;
}

void add_randomly_padded_event(
    struct case_file *file, struct byte_string *string, const struct phy_event *event, size_t most)
{
    for (size_t i = 0; i < event_numbers(event); i++) {
        add_randomly_padded(file, string, event_number(event, i), most);
    }
}

void add_event_padded_at(
    struct byte_string *string, const struct phy_event *event, size_t which, size_t groups)
{
    add_event_numbers(string, event, 0, which);
    add_padded(string, event_number(event, which), groups);
    add_event_numbers(string, event, which + 1, event_numbers(event));
}

void random_damage(struct case_file *file, struct byte_string *string)
{
    size_t hit = (size_t)case_random_below(file, string->length);

    switch (case_random_below(file, 6)) {
    case 0:
        string->bytes[hit] ^= (uint8_t)(1U << case_random_below(file, 8));
        return;
    case 1:
        string->bytes[hit] = (uint8_t)case_random(file);
        return;
    case 2:
        string->bytes[hit] = 0;
        return;
    case 3:
        string->bytes[hit] |= ANOTHER_FOLLOWS;
        return;
    case 4:
        string->length = hit;
        return;
    default:
        memmove(string->bytes + hit, string->bytes + hit + 1, string->length - hit - 1);
        string->length--;
        return;
    }
}

/* ---- Pieces ---- */

void pieces_clear(struct pieces *pieces)
{
    pieces->count = 0;
    pieces->once_length = 0;
    pieces->length = 0;
}

void pieces_add(struct pieces *pieces, uint64_t repeat, const uint8_t *bytes, size_t length)
{
    assert(pieces->count < MOST_PIECES && length <= PIECES_ROOM - pieces->once_length);
    pieces->piece[pieces->count] = (struct piece){.repeat = repeat, .length = length};
    pieces->count++;
    memcpy(pieces->once + pieces->once_length, bytes, length);
    pieces->once_length += length;
    for (uint64_t i = 0; i < repeat; i++) {
        assert(length <= WHOLE_ROOM - pieces->length);
        memcpy(pieces->whole + pieces->length, bytes, length);
        pieces->length += length;
    }
}

void pieces_add_string(struct pieces *pieces, uint64_t repeat, const struct byte_string *string)
{
    pieces_add(pieces, repeat, string->bytes, string->length);
}

void pieces_add_padded_event(struct pieces *pieces, uint64_t repeat, struct phy_event event, size_t groups)
{
    struct byte_string string = {.length = 0};

    add_padded_event(&string, &event, groups);
    pieces_add_string(pieces, repeat, &string);
}

void pieces_add_event(struct pieces *pieces, uint64_t repeat, struct phy_event event)
{
    pieces_add_padded_event(pieces, repeat, event, SHORTEST);
}

uint64_t pieces_of_script(
    struct pieces *pieces, const struct phy_item items[SCRIPT_ITEMS], size_t groups)
{
    uint64_t events = 0;

    pieces_clear(pieces);
    for (size_t i = 0; i < SCRIPT_ITEMS && items[i].repeat != 0; i++) {
        pieces_add_padded_event(pieces, items[i].repeat, items[i].event, groups);
        events += items[i].repeat;
    }
    return events;
}

void case_pieces(struct case_file *file, const struct pieces *pieces)
{
    size_t place = 0;

    case_number(file, pieces->count);
    for (size_t i = 0; i < pieces->count; i++) {
        case_number(file, pieces->piece[i].repeat);
        case_bytes(file, pieces->once + place, pieces->piece[i].length);
        place += pieces->piece[i].length;
    }
}

/* ---- Lines ---- */

void expect_event_read(struct case_file *file, enum case_kind kind, const struct event_read *got)
{
    uint64_t line[4 + PHY_ARGUMENTS] = {got->found, got->refusal, got->next, got->event.code};

    memcpy(line + 4, got->event.argument, sizeof got->event.argument);
    expect_line(file, kind, line, sizeof line / sizeof line[0]);
}
