#include "phy_samples.h"

#include <assert.h>

enum {
    LINKS = 7,
    LIKELY = 10
};

/* ---- Events ---- */

const struct argument_ends argument_ends[] = {
    {EVENT_TX_OPEN, 0, 3, {0, 1, UINT64_MAX}},
    {EVENT_TX_OPEN, 1, 7, {0, 1, 2, 3, PAST_8_BITS, PAST_32_BITS, UINT64_MAX}},
    {EVENT_TX_OPEN, 2, 8, {0, 7, 8, 9, 10, PAST_8_BITS + 8, PAST_32_BITS + 9, UINT64_MAX}},
    {EVENT_TX_OPEN, 3, 5, {0, 65535, 65536, PAST_32_BITS, UINT64_MAX}},
    {EVENT_TX_OPEN, 4, 5, {0, 255, 256, PAST_32_BITS, UINT64_MAX}},
    {EVENT_TX_OPEN, 5, 5, {0, 65535, 65536, PAST_32_BITS, UINT64_MAX}},
    {EVENT_OPEN_RECEIVED, 0, 3, {0, 1, UINT64_MAX}},
    {EVENT_OPEN_RECEIVED, 1, 7, {0, 1, 2, 3, PAST_8_BITS, PAST_32_BITS, UINT64_MAX}},
    {EVENT_OPEN_REJECT, 0, 7, {0, 6, 7, 8, PAST_8_BITS, PAST_32_BITS, UINT64_MAX}}
};
const size_t argument_ends_count = sizeof argument_ends / sizeof argument_ends[0];

struct phy_event plain_event(uint64_t code)
{
    return (struct phy_event){.code = code};
}

struct phy_event sample_event(uint64_t code)
{
    switch (code) {
    case EVENT_TX_OPEN:
        return (struct phy_event){code, {WANTED_ADDRESS, PROTOCOL_SSP, RATE_3_GBPS, 300, 2, 10}};
    case EVENT_OPEN_RECEIVED:
        return (struct phy_event){code, {OTHER_ADDRESS, PROTOCOL_STP}};
    default:
        return plain_event(code);
    }
}

const struct phy_event widest_tx_open = {
    EVENT_TX_OPEN, {UINT64_MAX, PROTOCOL_STP, RATE_3_GBPS, 65535, 255, PHY_MOST_WAIT}
};

/* All arguments at their ends together, and codes that are unknown. */
static const struct phy_event outermost_events[] = {
    {EVENT_TX_OPEN, {0, PROTOCOL_SMP, RATE_1_5_GBPS, 0, 0, 0}},
    {EVENT_TX_OPEN, {UINT64_MAX, PROTOCOL_STP, RATE_3_GBPS, 65535, 255, PHY_MOST_WAIT}},
    {EVENT_TX_OPEN, {UINT64_MAX, UINT64_MAX, UINT64_MAX, UINT64_MAX, UINT64_MAX, UINT64_MAX}},
    {EVENT_OPEN_RECEIVED, {0, PROTOCOL_SMP}},
    {EVENT_OPEN_RECEIVED, {UINT64_MAX, PROTOCOL_STP}},
    {0, {0}}, {16, {0}}, {17, {0}}, {127, {0}}, {128, {0}}, {255, {0}},
    {PAST_8_BITS, {0}}, {PAST_8_BITS + EVENT_TICK, {0}}, {PAST_32_BITS + EVENT_TX_OPEN, {0}},
    {UINT64_C(1) << 63, {0}}, {UINT64_MAX, {0}}
};

static size_t list_argument_ends(struct phy_event events[MOST_LISTED_EVENTS], size_t count)
{
    for (size_t i = 0; i < argument_ends_count; i++) {
        const struct argument_ends *ends = &argument_ends[i];

        for (size_t k = 0; k < ends->count; k++) {
            assert(count < MOST_LISTED_EVENTS);
            events[count] = sample_event(ends->code);
            events[count].argument[ends->which] = ends->values[k];
            count++;
        }
    }
    return count;
}

size_t list_events(struct phy_event events[MOST_LISTED_EVENTS])
{
    size_t count = 0;

    for (uint64_t code = EVENT_TX_OPEN; code <= EVENT_PHY_DISABLED; code++) {
        events[count++] = sample_event(code);
    }
    count = list_argument_ends(events, count);
    for (size_t i = 0; i < sizeof outermost_events / sizeof outermost_events[0]; i++) {
        assert(count < MOST_LISTED_EVENTS);
        events[count++] = outermost_events[i];
    }
    return count;
}

size_t list_valid_events(struct phy_event events[MOST_LISTED_EVENTS])
{
    struct phy_event listed[MOST_LISTED_EVENTS];
    size_t listed_count = list_events(listed);
    size_t count = 0;

    for (size_t i = 0; i < listed_count; i++) {
        if (phy_event_is_valid(&listed[i])) {
            events[count++] = listed[i];
        }
    }
    return count;
}

const struct phy_event phy_tour[] = {
    {EVENT_TX_OPEN, {OTHER_ADDRESS, PROTOCOL_SSP, RATE_3_GBPS, 300, 2, 0}},
    {EVENT_TX_OPEN, {OTHER_ADDRESS, PROTOCOL_SSP, RATE_3_GBPS, 300, 2, 0}},
    {EVENT_TICK, {0}},
    {EVENT_OPEN_ACCEPT, {0}},
    {EVENT_SMP_TRANSMIT_BREAK, {0}},
    {EVENT_CANCEL_OPEN, {0}},
    {EVENT_CLOSE_CONNECTION, {0}},
    {EVENT_CLOSE, {0}},
    {EVENT_CLOSE_CONNECTION, {0}},
    {EVENT_ACCEPT_OPENS, {0}},
    {EVENT_OPEN_RECEIVED, {OTHER_ADDRESS, PROTOCOL_SMP}},
    {EVENT_TX_OPEN, {OTHER_ADDRESS, PROTOCOL_STP, RATE_1_5_GBPS, 0, 0, 65535}},
    {EVENT_TICK, {0}},
    {EVENT_BREAK, {0}},
    {EVENT_TX_OPEN, {UINT64_MAX, PROTOCOL_SMP, RATE_3_GBPS, 65535, 255, 1}},
    {EVENT_TICK, {0}},
    {EVENT_TX_OPEN, {UINT64_MAX, PROTOCOL_SMP, RATE_3_GBPS, 65535, 255, 1}},
    {EVENT_OPEN_REJECT, {4}},
    {EVENT_HARD_RESET, {0}}
};
const size_t phy_tour_count = sizeof phy_tour / sizeof phy_tour[0];

/* ---- Records ---- */

/* Of both slopes; with each part the wait is a valid one in P2. */
static const struct {
    uint64_t wait;
    uint64_t part;
} sample_waits[] = {
    {0, 0}, {65534, 999}, {65535, 0}, {32767, 0}, {32768, 0}, {SECOND_SLOPE_WAIT, 500}
};
enum { WAITS = sizeof sample_waits / sizeof sample_waits[0] };

size_t variant_count(uint64_t link, uint64_t port)
{
    if (port == PORT_REQ_WAIT || port == PORT_WAIT_FOR_CLOSE) {
        return WAITS;
    }
    return port == PORT_CONNECTED || link == LINK_SELECTED ? 3 : 1;
}

static struct phy_request sample_request(size_t variant)
{
    return (struct phy_request){
        .destination = WANTED_ADDRESS,
        .protocol = variant % 3,
        .rate = variant % 2 == 0 ? RATE_1_5_GBPS : RATE_3_GBPS,
        .tag = 300,
        .blocked = 2,
        .wait = sample_waits[variant].wait
    };
}

static uint64_t sample_reason(uint64_t link, size_t variant)
{
    if (link == LINK_BREAK) {
        return ANSWER_BREAK_RECEIVED;
    }
    return variant < 3 ? ANSWER_OPEN_TIMEOUT : ANSWER_PORT_LAYER_REQUEST;
}

struct phy sample_record(uint64_t link, uint64_t port, size_t variant)
{
    struct phy phy = {.link = link, .port = port};

    if (link == LINK_ARB_SEL || link == LINK_DISCONNECT_WAIT || link == LINK_BREAK_WAIT) {
        phy.timer = 500;
    }
    if (link == LINK_SELECTED) {
        phy.source = variant < 3 ? WANTED_ADDRESS : OTHER_ADDRESS;
        phy.inbound_protocol = (variant + variant / 3) % 3;
    }
    if (port == PORT_REQ_WAIT || port == PORT_WAIT_FOR_CLOSE) {
        phy.request = sample_request(variant);
    }
    if (port == PORT_REQ_WAIT) {
        phy.part = sample_waits[variant].part;
    }
    if (port == PORT_CONNECTED) {
        phy.connection_protocol = variant % 3;
    }
    if (port == PORT_WAIT_FOR_CLOSE) {
        phy.reason = sample_reason(link, variant);
    }
    return phy;
}

/* ---- Scripts ---- */

const struct phy_item phy_scripts[][SCRIPT_ITEMS] = {
    /* Open Timeout at tick 2,000. */
    {TX_OPEN(7, 1, 0), PLAIN(999, EVENT_TICK), PLAIN(1, EVENT_TICK), PLAIN(999, EVENT_TICK),
     PLAIN(1, EVENT_TICK), PLAIN(1, EVENT_TICK)},
    {TX_OPEN(7, 1, 0), PLAIN(2500, EVENT_TICK)},
    /* An AIP in L1 starts the timer again, one in L5 does not. */
    {TX_OPEN(7, 1, 0), PLAIN(999, EVENT_TICK), PLAIN(1, EVENT_AIP), PLAIN(2000, EVENT_TICK),
     PLAIN(1, EVENT_TICK)},
    {TX_OPEN(7, 1, 0), PLAIN(1500, EVENT_TICK), PLAIN(1, EVENT_AIP), PLAIN(500, EVENT_TICK)},
    {TX_OPEN(7, 1, 0), PLAIN(1500, EVENT_TICK), PLAIN(1, EVENT_AIP), PLAIN(499, EVENT_TICK),
     PLAIN(1, EVENT_TICK)},
    {TX_OPEN(7, 1, 0), PLAIN(1000, EVENT_TICK), PLAIN(1, EVENT_AIP), PLAIN(1000, EVENT_TICK)},
    /* The wait comes to 32,768 with the next tick, and to 32,769 with the thousandth behind it. */
    {TX_OPEN(7, 0, 32767), PLAIN(1, EVENT_TICK), PLAIN(998, EVENT_TICK), PLAIN(1, EVENT_AIP),
     PLAIN(1, EVENT_TICK), PLAIN(1, EVENT_TICK), PLAIN(1, EVENT_OPEN_ACCEPT)},
    /* It stops at 65,535. */
    {TX_OPEN(7, 0, 65534), PLAIN(998, EVENT_TICK), PLAIN(1, EVENT_TICK), PLAIN(1, EVENT_AIP),
     PLAIN(1, EVENT_TICK), PLAIN(1, EVENT_TICK), PLAIN(1, EVENT_OPEN_ACCEPT)},
    /* Another Open begins with no part of a millisecond. */
    {TX_OPEN(7, 2, 32767), PLAIN(3, EVENT_TICK), OPEN_FROM(8, 0), PLAIN(1, EVENT_BREAK), PLAIN(1, EVENT_TICK),
     TX_OPEN(7, 2, SECOND_SLOPE_WAIT), PLAIN(1, EVENT_TICK), PLAIN(1, EVENT_CANCEL_OPEN), PLAIN(1, EVENT_BREAK)},
    /* Opened from outside with a request waiting. */
    {PLAIN(1, EVENT_ACCEPT_OPENS), OPEN_FROM(7, 1), TX_OPEN(7, 2, 0), PLAIN(1, EVENT_TICK),
     PLAIN(1, EVENT_CLOSE), PLAIN(1, EVENT_CLOSE_CONNECTION)},
    {PLAIN(1, EVENT_ACCEPT_OPENS), OPEN_FROM(7, 0), TX_OPEN(8, 2, 0), PLAIN(1, EVENT_TICK),
     PLAIN(1, EVENT_SMP_TRANSMIT_BREAK), PLAIN(1000, EVENT_TICK)},
    {TX_OPEN(7, 2, 5), PLAIN(10, EVENT_TICK), OPEN_FROM(7, 0), PLAIN(1, EVENT_CANCEL_OPEN),
     PLAIN(1, EVENT_ACCEPT_OPENS), PLAIN(1, EVENT_TICK), TX_OPEN(7, 2, 0), PLAIN(1, EVENT_BREAK),
     PLAIN(1, EVENT_TICK)},
    {TX_OPEN(7, 2, 5), OPEN_FROM(7, 0), PLAIN(1, EVENT_TICK), PLAIN(1, EVENT_TICK)},
    {OPEN_FROM(7, 0), PLAIN(1, EVENT_TICK), OPEN_FROM(7, 2), PLAIN(1, EVENT_ACCEPT_OPENS),
     OPEN_FROM(9, 0), PLAIN(1, EVENT_TICK), PLAIN(1, EVENT_SMP_TRANSMIT_BREAK)},
    /* Broken off while selected. */
    {OPEN_FROM(7, 1), PLAIN(1, EVENT_BREAK), TX_OPEN(7, 1, 0), PLAIN(1, EVENT_CANCEL_OPEN),
     PLAIN(1, EVENT_BREAK), PLAIN(1, EVENT_TICK)},
    {TX_OPEN(7, 1, 0), OPEN_FROM(8, 1), PLAIN(1, EVENT_BREAK), PLAIN(1, EVENT_TICK)},
    /* Cancelled, and every way out of L5. */
    {TX_OPEN(7, 1, 0), PLAIN(1, EVENT_CANCEL_OPEN), PLAIN(1, EVENT_CANCEL_OPEN), PLAIN(1, EVENT_BREAK)},
    {TX_OPEN(7, 1, 0), PLAIN(3, EVENT_TICK), PLAIN(1, EVENT_CANCEL_OPEN), PLAIN(999, EVENT_TICK),
     PLAIN(1, EVENT_AIP), PLAIN(1, EVENT_OPEN_ACCEPT), PLAIN(1, EVENT_TICK)},
    {TX_OPEN(7, 1, 0), PLAIN(1, EVENT_CANCEL_OPEN), OPEN_FROM(7, 1), PLAIN(1, EVENT_CLOSE), REJECTED(3)},
    /* Tx Open twice; then broken off by the far side. */
    {TX_OPEN(7, 1, 0), TX_OPEN(7, 1, 0), PLAIN(1, EVENT_BREAK), TX_OPEN(7, 1, 0), PLAIN(1, EVENT_TICK),
     TX_OPEN(9, 0, 1)},
    /* Closed by both sides in either order, and by one only. */
    {TX_OPEN(7, 1, 0), PLAIN(1, EVENT_OPEN_ACCEPT), PLAIN(1, EVENT_CLOSE_CONNECTION), PLAIN(1, EVENT_CLOSE)},
    {TX_OPEN(7, 1, 0), PLAIN(1, EVENT_OPEN_ACCEPT), PLAIN(2, EVENT_CLOSE), PLAIN(1, EVENT_CLOSE_CONNECTION)},
    {TX_OPEN(7, 1, 0), PLAIN(1, EVENT_OPEN_ACCEPT), PLAIN(2, EVENT_CLOSE_CONNECTION),
     PLAIN(999, EVENT_TICK), PLAIN(1, EVENT_TICK), PLAIN(999, EVENT_TICK), PLAIN(1, EVENT_TICK)},
    {TX_OPEN(7, 1, 0), PLAIN(1, EVENT_OPEN_ACCEPT), PLAIN(1, EVENT_CLOSE_CONNECTION),
     PLAIN(1, EVENT_BREAK), PLAIN(1, EVENT_TICK)},
    {TX_OPEN(7, 1, 0), PLAIN(1, EVENT_OPEN_ACCEPT), PLAIN(1, EVENT_CLOSE), PLAIN(1, EVENT_BREAK),
     PLAIN(1, EVENT_CLOSE_CONNECTION), PLAIN(1, EVENT_TICK)},
    /* SMP Break, far-closed or not, and on another protocol. */
    {TX_OPEN(7, 0, 0), PLAIN(1, EVENT_OPEN_ACCEPT), PLAIN(1, EVENT_CLOSE),
     PLAIN(1, EVENT_SMP_TRANSMIT_BREAK), PLAIN(1, EVENT_CLOSE), PLAIN(1, EVENT_BREAK)},
    {TX_OPEN(7, 0, 0), PLAIN(1, EVENT_OPEN_ACCEPT), PLAIN(2, EVENT_SMP_TRANSMIT_BREAK), REJECTED(0)},
    {TX_OPEN(7, 2, 0), PLAIN(1, EVENT_OPEN_ACCEPT), PLAIN(1, EVENT_SMP_TRANSMIT_BREAK)},
    /* The accept flag outlives all but the resets. */
    {PLAIN(1, EVENT_ACCEPT_OPENS), TX_OPEN(7, 1, 0), REJECTED(2), OPEN_FROM(7, 1), PLAIN(1, EVENT_TICK),
     PLAIN(1, EVENT_HARD_RESET), OPEN_FROM(7, 1), PLAIN(1, EVENT_TICK)},
    {PLAIN(1, EVENT_ACCEPT_OPENS), OPEN_FROM(7, 1), PLAIN(1, EVENT_PHY_DISABLED), OPEN_FROM(7, 1),
     PLAIN(1, EVENT_TICK)}
};
const size_t phy_script_count = sizeof phy_scripts / sizeof phy_scripts[0];

/* ---- Seeded events ---- */

static const uint64_t likely_codes[LINKS][LIKELY] = {
    [LINK_IDLE] = {
        EVENT_TX_OPEN, EVENT_TX_OPEN, EVENT_TX_OPEN, EVENT_TX_OPEN, EVENT_OPEN_RECEIVED,
        EVENT_OPEN_RECEIVED, EVENT_OPEN_RECEIVED, EVENT_ACCEPT_OPENS, EVENT_REJECT_OPENS, EVENT_TICK
    },
    [LINK_ARB_SEL] = {
        EVENT_TICK, EVENT_TICK, EVENT_TICK, EVENT_AIP, EVENT_OPEN_ACCEPT,
        EVENT_OPEN_ACCEPT, EVENT_OPEN_REJECT, EVENT_BREAK, EVENT_OPEN_RECEIVED, EVENT_CANCEL_OPEN
    },
    [LINK_SELECTED] = {
        EVENT_TICK, EVENT_TICK, EVENT_TICK, EVENT_TX_OPEN, EVENT_TX_OPEN,
        EVENT_ACCEPT_OPENS, EVENT_REJECT_OPENS, EVENT_BREAK, EVENT_CANCEL_OPEN, EVENT_OPEN_RECEIVED
    },
    [LINK_CONNECTED] = {
        EVENT_CLOSE_CONNECTION, EVENT_CLOSE_CONNECTION, EVENT_CLOSE_CONNECTION, EVENT_CLOSE, EVENT_CLOSE,
        EVENT_SMP_TRANSMIT_BREAK, EVENT_SMP_TRANSMIT_BREAK, EVENT_BREAK, EVENT_TICK, EVENT_TX_OPEN
    },
    [LINK_DISCONNECT_WAIT] = {
        EVENT_TICK, EVENT_TICK, EVENT_TICK, EVENT_TICK, EVENT_CLOSE,
        EVENT_CLOSE, EVENT_BREAK, EVENT_AIP, EVENT_CLOSE_CONNECTION, EVENT_OPEN_RECEIVED
    },
    [LINK_BREAK_WAIT] = {
        EVENT_TICK, EVENT_TICK, EVENT_TICK, EVENT_TICK, EVENT_AIP,
        EVENT_BREAK, EVENT_OPEN_REJECT, EVENT_OPEN_ACCEPT, EVENT_CANCEL_OPEN, EVENT_TX_OPEN
    },
    [LINK_BREAK] = {
        EVENT_TICK, EVENT_TICK, EVENT_TICK, EVENT_TX_OPEN, EVENT_TX_OPEN,
        EVENT_TX_OPEN, EVENT_CANCEL_OPEN, EVENT_BREAK, EVENT_ACCEPT_OPENS, EVENT_AIP
    }
};

uint64_t random_likely_code(struct case_file *file, uint64_t link)
{
    return case_random_of(file, likely_codes[link], LIKELY);
}

/* Few addresses, so that the source often is the destination. */
static uint64_t random_address(struct case_file *file)
{
    return case_random_one_in(file, 16) ? case_random(file) : 7 + case_random_below(file, 2);
}

static struct phy_event random_tx_open(struct case_file *file)
{
    static const uint64_t waits[] = {
        0, 0, 0, 32766, 32767, 32768, 32769, 33000, 65533, 65534, 65535
    };
    struct phy_event event = {.code = EVENT_TX_OPEN};

    event.argument[0] = random_address(file);
    event.argument[1] = case_random_below(file, 3);
    event.argument[2] = RATE_1_5_GBPS + case_random_below(file, 2);
    event.argument[3] = case_random_below(file, 65536);
    event.argument[4] = case_random_below(file, 256);
    event.argument[5] = case_random_of(file, waits, sizeof waits / sizeof waits[0]);
    return event;
}

struct phy_event random_event_of(struct case_file *file, uint64_t code)
{
    struct phy_event event = {.code = code};

    switch (code) {
    case EVENT_TX_OPEN:
        return random_tx_open(file);
    case EVENT_OPEN_RECEIVED:
        event.argument[0] = random_address(file);
        event.argument[1] = case_random_below(file, 3);
        return event;
    case EVENT_OPEN_REJECT:
        event.argument[0] = case_random_below(file, 8);
        return event;
    default:
        return event;
    }
}
