#include "number.h"

#include "refusals.h"

enum {
    GROUP_BITS = 7,
    GROUP_MASK = 0x7F,
    ANOTHER_FOLLOWS = 0x80,
    LAST_GROUP = NUMBER_MOST_BYTES - 1,
    LAST_GROUP_MOST = 1
};

static struct number_read number_fault(uint64_t refusal, size_t place)
{
    return (struct number_read){.refusal = refusal, .value = 0, .next = place};
}

static struct number_read number_taken(uint64_t value, size_t next)
{
    return (struct number_read){.refusal = NOT_REFUSED, .value = value, .next = next};
}

/* A group of zero adds nothing to the value wherever it stands, so padding needs no rule of its own. */
static uint64_t group_value(uint8_t byte, unsigned group)
{
    return (uint64_t)(byte & GROUP_MASK) << (GROUP_BITS * group);
}

/* The tenth byte is judged whole: bit 63 is the only one left, so even its high bit is too much. */
static struct number_read last_group_read(uint64_t value, uint8_t byte, size_t place)
{
    if (byte > LAST_GROUP_MOST) {
        return number_fault(REFUSED_TOO_LARGE, place);
    }
    return number_taken(value | group_value(byte, LAST_GROUP), place + NUMBER_MOST_BYTES);
}

/* Nine groups of seven bits always fit in the value, so only the tenth is judged, and that after the loop. */
struct number_read number_read(const uint8_t *bytes, size_t length, size_t place)
{
    uint64_t value = 0;
    size_t next = place;

    for (unsigned group = 0; group < LAST_GROUP; group++) {
        if (next >= length) {
            return number_fault(REFUSED_CUT, place);
        }

        uint8_t byte = bytes[next];

        next++;
        value |= group_value(byte, group);
        if ((byte & ANOTHER_FOLLOWS) == 0) {
            return number_taken(value, next);
        }
    }
    if (next >= length) {
        return number_fault(REFUSED_CUT, place);
    }
    return last_group_read(value, bytes[next], place);
}

size_t number_length(uint64_t value)
{
    size_t length = 1;

    while (value > GROUP_MASK) {
        value >>= GROUP_BITS;
        length++;
    }
    return length;
}

struct number_written number_write(uint64_t value, uint8_t *buffer, size_t length, size_t place)
{
    size_t needed = number_length(value);

    /* Subtracting from length cannot wrap here; adding to place could. */
    if (place > length || length - place < needed) {
        return (struct number_written){.refusal = REFUSED_NO_ROOM, .length = 0};
    }
    for (size_t i = 0; i + 1 < needed; i++) {
        buffer[place + i] = (uint8_t)((value & GROUP_MASK) | ANOTHER_FOLLOWS);
        value >>= GROUP_BITS;
    }
    buffer[place + needed - 1] = (uint8_t)value;
    return (struct number_written){.refusal = NOT_REFUSED, .length = needed};
}
