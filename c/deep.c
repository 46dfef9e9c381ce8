#include "deep.h"

uint64_t nowhere(uint64_t value);

/* Bytes by number, so that the compiler needs no pointer to them. */
__attribute__((noinline)) uint64_t deep_300(struct deep_words words, uint64_t value)
{
    volatile uint8_t kept[300];

    kept[0] = (uint8_t)words.word[2];
    kept[299] = (uint8_t)value;
    return (uint64_t)kept[0] + kept[299];
}

uint64_t deep_many(struct deep_many many, uint64_t value)
{
    volatile uint8_t kept[120];

    kept[0] = (uint8_t)many.word[24];
    kept[119] = (uint8_t)value;
    return (uint64_t)kept[0] + kept[119];
}

__attribute__((noinline)) uint64_t deep_back(const uint8_t *from, size_t length)
{
    volatile uint8_t kept[100];
    volatile uint8_t *place = kept + sizeof kept;

    for (size_t left = length < sizeof kept ? length : sizeof kept; left > 0; left--) {
        *--place = *from++;
    }
    return *place;
}

uint64_t deep_call(uint64_t value)
{
    struct deep_words words = {{value, value, value}};

    return deep_300(words, value) * value;
}

uint64_t deep_switch(uint64_t choice, uint64_t value)
{
    switch (choice) {
    case 0: return value * 3;
    case 1: return value / 5;
    case 2: return value ^ 7;
    case 3: return deep_call(value) + value;
    case 4: return value % 9;
    case 5: return value << 5;
    default: return 0;
    }
}

uint64_t deep_tail(const uint8_t *from, size_t length)
{
    return deep_back(from + 1, length - 1);
}

uint64_t endless_call(uint64_t (*function)(uint64_t), uint64_t value)
{
    return function(value) + 1;
}

uint64_t endless_memory(uint64_t (*const *functions)(uint64_t), uint64_t value)
{
    return functions[value](value) + 1;
}

uint64_t endless_jump(uint64_t (*function)(uint64_t), uint64_t value)
{
    return function(value);
}

uint64_t endless_switch(uint64_t choice, uint64_t (*function)(uint64_t), uint64_t value)
{
    switch (choice) {
    case 0: return value * 3;
    case 1: return value / 5;
    case 2: return value ^ 7;
    case 3: return function(value);
    case 4: return value % 9;
    case 5: return value << 5;
    default: return 0;
    }
}

uint64_t endless_outside(uint64_t value)
{
    return nowhere(value) + 1;
}

uint64_t endless_again(uint64_t value)
{
    return value < 2 ? value : endless_again(value - 1) * endless_again(value - 2);
}

uint64_t endless_sized(size_t length)
{
    volatile uint8_t kept[length + 1];

    kept[length] = 1;
    return kept[length / 2];
}

void odd_twice(void)
{
}
