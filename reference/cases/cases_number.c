#include "cases.h"

#include "case_trace.h"
#include "number.h"

#include <string.h>

_Static_assert(SIZE_MAX == UINT64_MAX, "places up to 2^64-1 are part of the cases");

enum {
    MOST_BOUNDARIES = 64,
    MOST_STRING = 64,
    PAST_END = 2,
    MOST_GROUPS_TRIED = NUMBER_MOST_BYTES + 3,
    RANDOM_STRINGS = 400,
    DAMAGED_NUMBERS = 400,
    PADDED_NUMBERS = 300
};

/* All with the high bit set: no bits, the lowest, some and all bits of the group. */
static const uint8_t fills[] = {0x80, 0x81, 0xAA, 0xFF};

static const size_t far_places[] = {
    (size_t)1 << 31, (size_t)1 << 32, ((size_t)1 << 32) + 1, SIZE_MAX / 2, SIZE_MAX / 2 + 1,
    SIZE_MAX - 9, SIZE_MAX - 1, SIZE_MAX
};

static size_t list_boundaries(uint64_t values[MOST_BOUNDARIES])
{
    static const uint64_t plain[] = {
        0, 1, 2, 300, UINT32_MAX - UINT64_C(1), UINT32_MAX, UINT32_MAX + UINT64_C(1),
        UINT64_MAX - 2, UINT64_MAX - 1, UINT64_MAX
    };
    size_t count = sizeof plain / sizeof plain[0];

    memcpy(values, plain, sizeof plain);
    for (unsigned bits = 7; bits < 64; bits += 7) {
        uint64_t power = UINT64_C(1) << bits;

        values[count++] = power - 1;
        values[count++] = power;
        values[count++] = power + 1;
    }
    return count;
}

/* ---- Reading ---- */

static void read_case(struct case_file *file, size_t place, const uint8_t *bytes, size_t length)
{
    struct number_read got = number_read(bytes, length, place);
    const uint64_t line[] = {got.refusal, got.value, got.next};

    case_number(file, KIND_READ_NUMBER);
    case_number(file, place);
    case_bytes(file, bytes, length);
    expect_line(file, KIND_READ_NUMBER, line, sizeof line / sizeof line[0]);
}

static void read_string(struct case_file *file, size_t place, const struct byte_string *string)
{
    read_case(file, place, string->bytes, string->length);
}

/* In its widest form only: cut anywhere, a narrower one leaves the same bytes. */
static void read_cut_everywhere(struct case_file *file, uint64_t value)
{
    struct byte_string string = {.length = 0};

    add_padded(&string, value, NUMBER_MOST_BYTES);
    for (size_t length = 0; length < string.length; length++) {
        read_case(file, 0, string.bytes, length);
    }
}

/* A number before, one byte that is whole and one that is cut behind: every place has its own story. */
static void read_at_every_place(struct case_file *file, uint64_t value, size_t groups)
{
    struct byte_string string = {.length = 0};

    add_byte(&string, 0x80);
    add_byte(&string, 0x01);
    add_padded(&string, value, groups);
    add_byte(&string, 0x00);
    add_byte(&string, 0xFF);
    for (size_t place = 0; place <= string.length + PAST_END; place++) {
        read_string(file, place, &string);
    }
}

static void read_with_tails(struct case_file *file, uint64_t value, size_t groups)
{
    static const uint8_t tails[] = {0x00, 0x01, 0x80, 0xFF};
    struct byte_string string = {.length = 0};

    add_padded(&string, value, groups);
    read_string(file, 0, &string);
    for (size_t i = 0; i < sizeof tails; i++) {
        string.length = groups;
        add_byte(&string, tails[i]);
        read_string(file, 0, &string);
    }
}

/* From its shortest form up to ten groups. */
static void read_in_every_width(struct case_file *file, uint64_t value)
{
    for (size_t groups = number_length(value); groups <= NUMBER_MOST_BYTES; groups++) {
        read_at_every_place(file, value, groups);
        read_with_tails(file, value, groups);
    }
}

static void read_boundaries(struct case_file *file)
{
    uint64_t values[MOST_BOUNDARIES];
    size_t count = list_boundaries(values);

    for (size_t i = 0; i < count; i++) {
        read_cut_everywhere(file, values[i]);
        read_in_every_width(file, values[i]);
    }
}

/* Filled bytes that all promise another, then the last one; alone, and inside a longer string. */
static void read_filled(struct case_file *file, size_t filled, uint8_t fill, uint8_t last)
{
    uint8_t bytes[MOST_STRING] = {0x05, 0x06, 0x07};
    size_t before = 3;

    memset(bytes + before, fill, filled);
    bytes[before + filled] = last;
    bytes[before + filled + 1] = 0x01;
    read_case(file, 0, bytes + before, filled + 1);
    read_case(file, before, bytes, before + filled + 2);
}

/* Padded up to ten groups; with more of them it is too large, however little they add. */
static void read_last_group_zero(struct case_file *file)
{
    for (size_t groups = 2; groups <= MOST_GROUPS_TRIED; groups++) {
        for (size_t i = 0; i < sizeof fills; i++) {
            read_filled(file, groups - 1, fills[i], 0x00);
        }
    }
}

static void read_every_tenth_byte(struct case_file *file)
{
    for (unsigned tenth = 0; tenth <= UINT8_MAX; tenth++) {
        read_filled(file, NUMBER_MOST_BYTES - 1, 0x80, (uint8_t)tenth);
        read_filled(file, NUMBER_MOST_BYTES - 1, 0xFF, (uint8_t)tenth);
    }
}

static void read_every_short_string(struct case_file *file)
{
    for (unsigned byte = 0; byte <= UINT8_MAX; byte++) {
        read_filled(file, 0, 0, (uint8_t)byte);
        read_filled(file, 1, 0x80, (uint8_t)byte);
        read_filled(file, 1, 0xFF, (uint8_t)byte);
    }
}

static void read_cut(struct case_file *file)
{
    uint8_t bytes[NUMBER_MOST_BYTES + 2] = {0x05, 0x06, 0x07};

    for (size_t i = 0; i < sizeof fills; i++) {
        memset(bytes + 3, fills[i], NUMBER_MOST_BYTES - 1);
        for (size_t filled = 0; filled < NUMBER_MOST_BYTES; filled++) {
            read_case(file, 0, bytes + 3, filled);
            read_case(file, 3, bytes, 3 + filled);
        }
    }
}

static void read_past_the_end(struct case_file *file)
{
    static const uint8_t bytes[] = {0x01, 0x82, 0x03, 0x84, 0x85, 0x86, 0x87, 0x88, 0x89, 0x8A, 0x0B};

    for (size_t length = 0; length <= sizeof bytes; length++) {
        for (size_t past = 0; past < 3; past++) {
            read_case(file, length + past, bytes, length);
        }
        for (size_t i = 0; i < sizeof far_places / sizeof far_places[0]; i++) {
            read_case(file, far_places[i], bytes, length);
        }
    }
}

/* Mostly bytes that promise another, or strings would end after two. */
static void read_random_string(struct case_file *file)
{
    uint8_t bytes[MOST_STRING];
    size_t length = (size_t)case_random_below(file, 15);
    size_t place = (size_t)case_random_below(file, 4);

    for (size_t i = 0; i < length; i++) {
        uint8_t byte = (uint8_t)case_random(file);

        bytes[i] = case_random_one_in(file, 8) ? byte : (uint8_t)(byte | 0x80);
    }
    read_case(file, place, bytes, length);
}

static uint64_t random_value(struct case_file *file)
{
    uint64_t value = case_random(file);

    return value >> case_random_below(file, 64);
}

static void read_damaged(struct case_file *file)
{
    uint8_t bytes[MOST_STRING];
    size_t length = number_write(random_value(file), bytes, sizeof bytes, 0).length;
    size_t hit = (size_t)case_random_below(file, length);

    bytes[length] = (uint8_t)case_random(file);
    switch (case_random_below(file, 6)) {
    case 0:
        bytes[hit] ^= (uint8_t)(1U << case_random_below(file, 8));
        break;
    case 1:
        bytes[hit] = (uint8_t)case_random(file);
        break;
    case 2:
        bytes[length - 1] = 0;
        break;
    case 3:
        bytes[length - 1] |= 0x80;
        break;
    case 4:
        bytes[length - 1] |= 0x80;
        length++;
        break;
    default:
        length--;
        break;
    }
    read_case(file, 0, bytes, length);
}

static void read_randomly_padded(struct case_file *file)
{
    struct byte_string string = {.length = 0};

    add_randomly_padded(file, &string, random_value(file), NUMBER_MOST_BYTES);
    read_string(file, 0, &string);
    random_damage(file, &string);
    read_string(file, 0, &string);
}

/* ---- Writing ---- */

static void write_case(struct case_file *file, uint64_t value, size_t place, size_t length)
{
    uint8_t bytes[MOST_STRING];
    uint64_t line[2 + MOST_STRING];

    /* No byte is zero beforehand, so a write too many shows. */
    for (size_t i = 0; i < length; i++) {
        bytes[i] = (uint8_t)(0xF1 - 3 * i);
    }
    case_number(file, KIND_WRITE_NUMBER);
    case_number(file, value);
    case_number(file, place);
    case_bytes(file, bytes, length);

    struct number_written written = number_write(value, bytes, length, place);

    line[0] = written.refusal;
    line[1] = written.length;
    for (size_t i = 0; i < length; i++) {
        line[2 + i] = bytes[i];
    }
    expect_line(file, KIND_WRITE_NUMBER, line, 2 + length);
}

static void write_around_the_fit(struct case_file *file, uint64_t value, size_t place)
{
    size_t fit = place + number_length(value);

    write_case(file, value, place, fit - 1);
    write_case(file, value, place, fit);
    write_case(file, value, place, fit + 1);
    write_case(file, value, place, fit + 6);
}

/* Among them the places whose sum with the number's length goes round to 0 and to 1. */
static void write_outside(struct case_file *file, uint64_t value)
{
    static const size_t lengths[] = {0, 1, 12};
    size_t needed = number_length(value);

    for (size_t i = 0; i < sizeof lengths / sizeof lengths[0]; i++) {
        write_case(file, value, lengths[i], lengths[i]);
        write_case(file, value, lengths[i] + 1, lengths[i]);
        write_case(file, value, SIZE_MAX, lengths[i]);
        write_case(file, value, SIZE_MAX - (needed - 1), lengths[i]);
        if (needed > 1) {
            write_case(file, value, SIZE_MAX - (needed - 2), lengths[i]);
        }
    }
    for (size_t i = 0; i < sizeof far_places / sizeof far_places[0]; i++) {
        write_case(file, value, far_places[i], 12);
    }
}

static void write_boundaries(struct case_file *file)
{
    uint64_t values[MOST_BOUNDARIES];
    size_t count = list_boundaries(values);

    for (size_t i = 0; i < count; i++) {
        write_around_the_fit(file, values[i], 0);
        write_around_the_fit(file, values[i], 1);
        write_around_the_fit(file, values[i], 7);
        write_outside(file, values[i]);
    }
}

static void write_random(struct case_file *file)
{
    uint64_t value = random_value(file);
    size_t place = (size_t)case_random_below(file, 20);

    write_case(file, value, place, (size_t)case_random_below(file, 24));
}

static void write_in_the_longest_buffer(struct case_file *file)
{
    for (size_t place = MOST_STRING - 12; place <= MOST_STRING + 1; place++) {
        write_case(file, UINT64_MAX, place, MOST_STRING);
    }
}

void make_number_cases(struct case_file *file)
{
    read_boundaries(file);
    read_last_group_zero(file);
    read_every_tenth_byte(file);
    read_every_short_string(file);
    read_cut(file);
    read_past_the_end(file);
    for (int i = 0; i < RANDOM_STRINGS; i++) {
        read_random_string(file);
    }
    for (int i = 0; i < DAMAGED_NUMBERS; i++) {
        read_damaged(file);
    }
    for (int i = 0; i < PADDED_NUMBERS; i++) {
        read_randomly_padded(file);
    }
    write_boundaries(file);
    write_in_the_longest_buffer(file);
    for (int i = 0; i < RANDOM_STRINGS; i++) {
        write_random(file);
    }
}
