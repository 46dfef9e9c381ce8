#ifndef NUMBER_H
#define NUMBER_H

#include <stddef.h>
#include <stdint.h>

/* 64 bits in groups of seven: nine full groups and one bit. */
enum { NUMBER_MOST_BYTES = 10 };

/* Next is behind all bytes of the number. On a fault the value is 0, and next is the place given. */
struct number_read {
    uint64_t refusal;
    uint64_t value;
    size_t next;
};

struct number_written {
    uint64_t refusal;
    size_t length;
};

/* Takes one to ten groups; those at the end may be zero. */
struct number_read number_read(const uint8_t *bytes, size_t length, size_t place);

/* How many bytes the shortest form takes, in which every number is written. */
size_t number_length(uint64_t value);

struct number_written number_write(uint64_t value, uint8_t *buffer, size_t length, size_t place);

#endif
