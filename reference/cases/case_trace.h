#ifndef CASE_TRACE_H
#define CASE_TRACE_H

#include "bay.h"
#include "case_file.h"
#include "hex_file.h"
#include "phy_samples.h"
#include "trace.h"

enum {
    /* As a number of groups: no padding. */
    SHORTEST = 1,
    STRING_ROOM = 4096,
    MOST_PIECES = 200,
    PIECES_ROOM = HEX_FILE_MOST_BYTES,
    WHOLE_ROOM = 65537
};

/* What can be wrong with a number in a trace. From FAULT_CUT on it is cut, and nothing may follow it. */
enum number_fault {
    FAULT_OUT_OF_RANGE,
    FAULT_OUT_OF_RANGE_PADDED,
    FAULT_TOO_LARGE,
    FAULT_CUT,
    FAULT_CUT_IN_PADDING,
    NUMBER_FAULTS
};

/* ---- Strings of bytes, put together from their end on ---- */

struct byte_string {
    size_t length;
    uint8_t bytes[STRING_ROOM];
};

void add_byte(struct byte_string *string, uint8_t byte);
void add_fill(struct byte_string *string, uint8_t byte, size_t count);
void add_string(struct byte_string *string, const struct byte_string *tail);

/* In so many groups, at most ten; those that the number does not need are zero. */
void add_padded(struct byte_string *string, uint64_t value, size_t groups);

/* In at most so many groups; a number that needs more has more. */
void add_randomly_padded(struct case_file *file, struct byte_string *string, uint64_t value, size_t most);

/* In the place of a code. */
void add_fault(struct byte_string *string, enum number_fault fault);

/* The code and as many arguments as it has, whether in their ranges or not. */
void add_event(struct byte_string *string, const struct phy_event *event);

/* The same with all of its numbers padded, to so many groups or to at most so many; a number that needs
 * more has more. */
void add_padded_event(struct byte_string *string, const struct phy_event *event, size_t groups);
void add_randomly_padded_event(
    struct case_file *file, struct byte_string *string, const struct phy_event *event, size_t most);

/* The same by numbers: 0 is the code, the others are the arguments. */
size_t event_numbers(const struct phy_event *event);
uint64_t event_number(const struct phy_event *event, size_t which);
void add_event_numbers(struct byte_string *string, const struct phy_event *event, size_t from, size_t to);

/* A fault in the place of one of them. */
void add_fault_in(
    struct byte_string *string, const struct phy_event *event, size_t which, enum number_fault fault);

/* The event with such a fault; what is cut has nothing behind it. */
void add_faulty_event(
    struct byte_string *string, const struct phy_event *event, size_t which, enum number_fault fault);

/* The event alone, padded like that. */
struct byte_string event_string(const struct phy_event *event, size_t groups);

/* The event with one of its numbers in so many groups. */
void add_event_padded_at(
    struct byte_string *string, const struct phy_event *event, size_t which, size_t groups);

/* One small harm somewhere in a string that is not empty. */
void random_damage(struct case_file *file, struct byte_string *string);

/* ---- Traces in pieces, each of them so and so often ---- */

struct piece {
    uint64_t repeat;
    size_t length;
};

/* once: each piece's bytes, end to end. whole: the trace they make. */
struct pieces {
    size_t count;
    struct piece piece[MOST_PIECES];
    size_t once_length;
    uint8_t once[PIECES_ROOM];
    size_t length;
    uint8_t whole[WHOLE_ROOM];
};

void pieces_clear(struct pieces *pieces);
void pieces_add(struct pieces *pieces, uint64_t repeat, const uint8_t *bytes, size_t length);
void pieces_add_string(struct pieces *pieces, uint64_t repeat, const struct byte_string *string);
void pieces_add_event(struct pieces *pieces, uint64_t repeat, struct phy_event event);
void pieces_add_padded_event(struct pieces *pieces, uint64_t repeat, struct phy_event event, size_t groups);

/* All numbers are padded to so many groups. Gives the number of events. */
uint64_t pieces_of_script(
    struct pieces *pieces, const struct phy_item items[SCRIPT_ITEMS], size_t groups);

void case_pieces(struct case_file *file, const struct pieces *pieces);

/* ---- Lines ---- */

void expect_event_read(struct case_file *file, enum case_kind kind, const struct event_read *got);

#endif
