/* What c/stack is tried on by c/check: functions that take more stack than a glance shows, or have no known bound. */
#ifndef DEEP_H
#define DEEP_H

#include <stddef.h>
#include <stdint.h>

struct deep_words {
    uint64_t word[3];
};

struct deep_many {
    uint64_t word[25];
};

/* 300 bytes of its own, and 24 that its caller passes. */
uint64_t deep_300(struct deep_words words, uint64_t value);

/* 120 of its own, and 200 that its caller passes. */
uint64_t deep_many(struct deep_many many, uint64_t value);

/* 100 that it fills from the back, by a pointer. */
uint64_t deep_back(const uint8_t *from, size_t length);

/* It calls deep_300, in one of the cases that it chooses among by a table; or goes on in deep_back. */
uint64_t deep_call(uint64_t value);
uint64_t deep_switch(uint64_t choice, uint64_t value);
uint64_t deep_tail(const uint8_t *from, size_t length);

/* Without a bound: what they call or jump to, or what that takes, is not known, or how often, or how large they are. */
uint64_t endless_call(uint64_t (*function)(uint64_t), uint64_t value);
uint64_t endless_memory(uint64_t (*const *functions)(uint64_t), uint64_t value);
uint64_t endless_jump(uint64_t (*function)(uint64_t), uint64_t value);
uint64_t endless_switch(uint64_t choice, uint64_t (*function)(uint64_t), uint64_t value);
uint64_t endless_outside(uint64_t value);
uint64_t endless_again(uint64_t value);
uint64_t endless_sized(size_t length);

/* c/odd.s has another function of this name. */
void odd_twice(void);

#endif
