#include "inputs.h"

uint64_t random_state;

uint64_t random_number(void)
{
    uint64_t z = random_state += UINT64_C(0x9E3779B97F4A7C15);

    z = (z ^ (z >> 30)) * UINT64_C(0xBF58476D1CE4E5B9);
    z = (z ^ (z >> 27)) * UINT64_C(0x94D049BB133111EB);
    return z ^ (z >> 31);
}

uint64_t random_below(uint64_t limit)
{
    return random_number() % limit;
}

struct louravela_event event_of(uint64_t code)
{
    struct louravela_event event = {0};

    event.code = code;
    return event;
}

/* A Tx Open and the OPEN of a far end carry an address; the others have at most one small argument. */
struct louravela_event mixed_event(uint64_t least_address, uint64_t addresses)
{
    struct louravela_event event = event_of(1 + random_below(15));

    if (event.code == LOURAVELA_TX_OPEN || event.code == LOURAVELA_OPEN_RECEIVED) {
        event.first = least_address + random_below(addresses);
        event.second = random_below(3);
    }
    if (event.code == LOURAVELA_TX_OPEN) {
        event.third = 8 + random_below(2);
        event.fourth = random_below(100);
        event.fifth = random_below(100);
        event.sixth = random_below(100);
    }
    if (event.code == LOURAVELA_OPEN_REJECT_RECEIVED) {
        event.first = random_below(8);
    }
    return event;
}

struct phy_event their_event(const struct louravela_event *event)
{
    struct phy_event result = {
        .code = event->code,
        .argument = {event->first, event->second, event->third, event->fourth, event->fifth, event->sixth}
    };

    return result;
}
