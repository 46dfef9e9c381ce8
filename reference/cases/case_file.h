#ifndef CASE_FILE_H
#define CASE_FILE_H

#include <stdbool.h>
#include <stddef.h>
#include <stdint.h>
#include <stdio.h>

enum case_kind {
    KIND_READ_NUMBER = 1,
    KIND_WRITE_NUMBER = 2,
    KIND_DWS_WALK = 3,
    KIND_IDENTIFY_WALK = 4,
    KIND_PHY_WALK = 5,
    KIND_READ_EVENT = 6,
    KIND_WRITE_EVENT = 7,
    KIND_TRACE = 8,
    KIND_RUNS = 9,
    KIND_LISTING = 10,
    KIND_BAY_WALK = 11,
    KIND_READ_SHELF_EVENT = 12,
    KIND_WRITE_SHELF_EVENT = 13,
    KIND_PORT_WALK = 14,
    KIND_SHELF_RUNS = 15,
    KIND_SHELF_LISTING = 16
};

/* The two files stay in step: whoever writes a case also writes the lines expected of it. */
struct case_file {
    FILE *cases;
    FILE *expected;
    uint64_t random;
};

/* The files of one case program, in the folder of its name. */
bool case_file_open(struct case_file *file, const char *folder, const char *program);

/* False if anything of either file could not be written. */
bool case_file_close(struct case_file *file);

void case_number(struct case_file *file, uint64_t number);
void case_numbers(struct case_file *file, const uint64_t *numbers, size_t count);
void case_bytes(struct case_file *file, const uint8_t *bytes, size_t length);

void expect_line(struct case_file *file, enum case_kind kind, const uint64_t *numbers, size_t count);

/* A line of pairs: how many equal bytes come one after the other, and which byte it is. */
void expect_repeats(struct case_file *file, enum case_kind kind, const uint8_t *bytes, size_t length);

/* At most one of these in an expression: C leaves the order of two open, and the cases must not vary. */
uint64_t case_random(struct case_file *file);
uint64_t case_random_below(struct case_file *file, uint64_t limit);
bool case_random_one_in(struct case_file *file, uint64_t chances);
uint64_t case_random_of(struct case_file *file, const uint64_t *choices, size_t count);

#endif
