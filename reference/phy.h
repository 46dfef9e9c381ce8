#ifndef PHY_H
#define PHY_H

#include <stdbool.h>
#include <stddef.h>
#include <stdint.h>

enum {
    PHY_ARGUMENTS = 6,
    PHY_TIMER_START = 1000,
    PHY_MOST_WAIT = 65535,
    /* From this wait on one more stands for a millisecond; up to it, for a tick. */
    PHY_SLOW_WAIT = 32768,
    /* In ticks. */
    PHY_MILLISECOND = 1000
};

enum phy_link {
    LINK_IDLE = 0,
    LINK_ARB_SEL = 1,
    LINK_SELECTED = 2,
    LINK_CONNECTED = 3,
    LINK_DISCONNECT_WAIT = 4,
    LINK_BREAK_WAIT = 5,
    LINK_BREAK = 6
};

enum phy_port {
    PORT_IDLE = 1,
    PORT_REQ_WAIT = 2,
    PORT_CONNECTED = 3,
    PORT_WAIT_FOR_CLOSE = 4
};

enum phy_protocol {
    PROTOCOL_SMP = 0,
    PROTOCOL_SSP = 1,
    PROTOCOL_STP = 2
};

enum phy_rate {
    RATE_1_5_GBPS = 8,
    RATE_3_GBPS = 9
};

enum phy_event_code {
    EVENT_TX_OPEN = 1,
    EVENT_CANCEL_OPEN = 2,
    EVENT_CLOSE_CONNECTION = 3,
    EVENT_SMP_TRANSMIT_BREAK = 4,
    EVENT_ACCEPT_OPENS = 5,
    EVENT_REJECT_OPENS = 6,
    EVENT_OPEN_RECEIVED = 7,
    EVENT_OPEN_ACCEPT = 8,
    EVENT_OPEN_REJECT = 9,
    EVENT_AIP = 10,
    EVENT_BREAK = 11,
    EVENT_CLOSE = 12,
    EVENT_TICK = 13,
    EVENT_HARD_RESET = 14,
    EVENT_PHY_DISABLED = 15
};

enum phy_answer {
    NO_ANSWER = 0,
    ANSWER_OPENED = 32,
    ANSWER_RETRY = 48,
    ANSWER_NO_DESTINATION = 49,
    ANSWER_PATHWAY_BLOCKED = 50,
    ANSWER_COLLIDED = 51,
    ANSWER_OPENED_BY_DESTINATION = 52,
    ANSWER_OPENED_BY_OTHER = 53,
    ANSWER_BAD_DESTINATION = 64,
    ANSWER_RATE = 65,
    ANSWER_PROTOCOL = 66,
    ANSWER_STP_BUSY = 67,
    ANSWER_WRONG_DESTINATION = 68,
    ANSWER_OPEN_TIMEOUT = 69,
    ANSWER_BREAK_RECEIVED = 70,
    ANSWER_PORT_LAYER_REQUEST = 71,
    ANSWER_TERMINATED = 80
};

enum phy_notice {
    NO_NOTICE = 0,
    NOTICE_OPENED = 1,
    NOTICE_NORMAL = 2,
    NOTICE_CLOSE_TIMEOUT = 3,
    NOTICE_BREAK_REQUESTED = 4,
    NOTICE_BREAK_RECEIVED = 5,
    NOTICE_TRANSITION_TO_IDLE = 6,
    NOTICE_RESET = 7
};

enum phy_sent {
    SENT_NOTHING = 0,
    SENT_OPEN = 1,
    SENT_OPEN_ACCEPT = 2,
    SENT_OPEN_REJECT = 3,
    SENT_CLOSE = 4,
    SENT_BREAK = 5
};

struct phy_request {
    uint64_t destination;
    uint64_t protocol;
    uint64_t rate;
    uint64_t tag;
    uint64_t blocked;
    uint64_t wait;
};

/* part: the ticks in P2 that the wait does not show yet; no answer carries it, so it stands beside the request.
 * far_closed and accept are flags, 0 or 1; a record with any other number there is no valid one. */
struct phy {
    uint64_t link;
    uint64_t port;
    uint64_t timer;
    struct phy_request request;
    uint64_t part;
    uint64_t reason;
    uint64_t source;
    uint64_t inbound_protocol;
    uint64_t connection_protocol;
    uint64_t far_closed;
    uint64_t accept;
};

/* Arguments stand in the paper's order; those the event lacks are zero. */
struct phy_event {
    uint64_t code;
    uint64_t argument[PHY_ARGUMENTS];
};

struct phy_result {
    uint64_t refusal;
    uint64_t answer;
    uint64_t notice;
    uint64_t sent;
    struct phy_request answered;
    struct phy phy;
};

struct phy phy_fresh(void);
bool phy_is_valid(const struct phy *phy);

bool phy_code_is_known(uint64_t code);
size_t phy_argument_count(uint64_t code);

/* For a known code; an argument the event lacks fits only as zero. */
bool phy_argument_fits(uint64_t code, size_t which, uint64_t value);
bool phy_event_is_valid(const struct phy_event *event);

struct phy_result phy_step(struct phy phy, struct phy_event event);

#endif
