#include "shelf_samples.h"

#include "number.h"

#define TICK_OF(number) {number, {EVENT_TICK, {0}}}
#define STAMP_OF(number, counter) {number, {EVENT_TIME_STAMP, {counter}}}
#define PLAIN_OF(number, code) {number, {code, {0}}}
#define OPEN_OF(number, to, wait) {number, {EVENT_TX_OPEN, {to, PROTOCOL_SMP, RATE_1_5_GBPS, 1, 0, wait}}}

const struct shelf_event shelf_tour[SHELF_TOUR] = {
    STAMP_OF(0, 10), OPEN_OF(127, 7, 0), OPEN_OF(127, 8, 3), OPEN_OF(127, 9, 300), OPEN_OF(0, 7, 0),
    STAMP_OF(1, 5000), TICK_OF(2), TICK_OF(127), STAMP_OF(0, 2009), STAMP_OF(0, 2010),
    PLAIN_OF(1, EVENT_OPEN_ACCEPT), PLAIN_OF(1, EVENT_CANCEL_OPEN), PLAIN_OF(1, EVENT_SMP_TRANSMIT_BREAK),
    PLAIN_OF(1, EVENT_CLOSE_CONNECTION), OPEN_OF(127, 10, 1), STAMP_OF(1, 6000),
    PLAIN_OF(0, EVENT_BREAK), TICK_OF(0), PLAIN_OF(UINT64_MAX, EVENT_HARD_RESET), STAMP_OF(127, 0),
    PLAIN_OF(0, EVENT_HARD_RESET), OPEN_OF(1, 6, 2)
};

static void add_phy_number(struct byte_string *string, uint64_t number, size_t groups)
{
    size_t needed = number_length(number);

    add_padded(string, number, groups > needed ? groups : needed);
}

void add_shelf_event(struct byte_string *string, struct shelf_event event, size_t groups)
{
    add_phy_number(string, event.number, groups);
    add_event(string, &event.event);
}

void add_padded_shelf_event(struct byte_string *string, struct shelf_event event, size_t groups)
{
    add_phy_number(string, event.number, groups);
    add_padded_event(string, &event.event, groups);
}
