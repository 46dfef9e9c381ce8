#include "phy.h"

#include "refusals.h"

struct range {
    uint64_t low;
    uint64_t high;
};

static const struct range tx_open_ranges[PHY_ARGUMENTS] = {
    {0, UINT64_MAX},
    {PROTOCOL_SMP, PROTOCOL_STP},
    {RATE_1_5_GBPS, RATE_3_GBPS},
    {0, 65535},
    {0, 255},
    {0, PHY_MOST_WAIT}
};

/* In the tables below what is left out is {0, 0}: an argument the event lacks. */
static const struct range open_received_ranges[PHY_ARGUMENTS] = {
    {0, UINT64_MAX},
    {PROTOCOL_SMP, PROTOCOL_STP}
};

static const struct range open_reject_ranges[PHY_ARGUMENTS] = {
    {0, 7}
};

static const struct range no_argument_ranges[PHY_ARGUMENTS] = {
    {0, 0}
};

/* By the reason an OPEN_REJECT carries. */
static const uint64_t answer_to_reject[] = {
    [0] = ANSWER_RETRY,
    [1] = ANSWER_NO_DESTINATION,
    [2] = ANSWER_PATHWAY_BLOCKED,
    [3] = ANSWER_BAD_DESTINATION,
    [4] = ANSWER_RATE,
    [5] = ANSWER_PROTOCOL,
    [6] = ANSWER_STP_BUSY,
    [7] = ANSWER_WRONG_DESTINATION
};

struct phy phy_fresh(void)
{
    return (struct phy){.link = LINK_IDLE, .port = PORT_IDLE, .accept = 0};
}

/* ---- Events and their arguments ---- */

bool phy_code_is_known(uint64_t code)
{
    return code >= EVENT_TX_OPEN && code <= EVENT_PHY_DISABLED;
}

size_t phy_argument_count(uint64_t code)
{
    switch (code) {
    case EVENT_TX_OPEN:
        return 6;
    case EVENT_OPEN_RECEIVED:
        return 2;
    case EVENT_OPEN_REJECT:
        return 1;
    default:
        return 0;
    }
}

static const struct range *argument_ranges(uint64_t code)
{
    switch (code) {
    case EVENT_TX_OPEN:
        return tx_open_ranges;
    case EVENT_OPEN_RECEIVED:
        return open_received_ranges;
    case EVENT_OPEN_REJECT:
        return open_reject_ranges;
    default:
        return no_argument_ranges;
    }
}

bool phy_argument_fits(uint64_t code, size_t which, uint64_t value)
{
    const struct range *range = &argument_ranges(code)[which];

    return value >= range->low && value <= range->high;
}

static bool arguments_fit(uint64_t code, const uint64_t argument[PHY_ARGUMENTS])
{
    for (size_t i = 0; i < PHY_ARGUMENTS; i++) {
        if (!phy_argument_fits(code, i, argument[i])) {
            return false;
        }
    }
    return true;
}

bool phy_event_is_valid(const struct phy_event *event)
{
    return phy_code_is_known(event->code) && arguments_fit(event->code, event->argument);
}

static struct phy_request request_of(const struct phy_event *event)
{
    return (struct phy_request){
        .destination = event->argument[0],
        .protocol = event->argument[1],
        .rate = event->argument[2],
        .tag = event->argument[3],
        .blocked = event->argument[4],
        .wait = event->argument[5]
    };
}

/* ---- Valid records: one test for each rule ---- */

static bool link_is_timed(uint64_t link)
{
    return link == LINK_ARB_SEL || link == LINK_DISCONNECT_WAIT || link == LINK_BREAK_WAIT;
}

static bool request_is_kept(uint64_t port)
{
    return port == PORT_REQ_WAIT || port == PORT_WAIT_FOR_CLOSE;
}

static bool pair_fits(const struct phy *phy)
{
    uint64_t link = phy->link;

    switch (phy->port) {
    case PORT_IDLE:
        return link == LINK_IDLE || link == LINK_SELECTED || link == LINK_BREAK;
    case PORT_REQ_WAIT:
        return link == LINK_ARB_SEL || link == LINK_SELECTED || link == LINK_BREAK;
    case PORT_CONNECTED:
        return link >= LINK_CONNECTED && link <= LINK_BREAK;
    case PORT_WAIT_FOR_CLOSE:
        return link == LINK_BREAK_WAIT || link == LINK_BREAK;
    default:
        return false;
    }
}

static bool timer_fits(const struct phy *phy)
{
    if (!link_is_timed(phy->link)) {
        return phy->timer == 0;
    }
    return phy->timer >= 1 && phy->timer <= PHY_TIMER_START;
}

static bool request_is_zero(const struct phy_request *request)
{
    return request->destination == 0
        && request->protocol == 0
        && request->rate == 0
        && request->tag == 0
        && request->blocked == 0
        && request->wait == 0;
}

static bool request_in_range(const struct phy_request *request)
{
    const uint64_t argument[PHY_ARGUMENTS] = {
        request->destination, request->protocol, request->rate,
        request->tag, request->blocked, request->wait
    };

    return arguments_fit(EVENT_TX_OPEN, argument);
}

static bool request_fits(const struct phy *phy)
{
    if (!request_is_kept(phy->port)) {
        return request_is_zero(&phy->request);
    }
    return request_in_range(&phy->request);
}

static bool part_fits(const struct phy *phy)
{
    uint64_t wait = phy->request.wait;

    if (phy->port != PORT_REQ_WAIT || wait < PHY_SLOW_WAIT || wait == PHY_MOST_WAIT) {
        return phy->part == 0;
    }
    return phy->part < PHY_MILLISECOND;
}

static bool reason_fits(const struct phy *phy)
{
    if (phy->port != PORT_WAIT_FOR_CLOSE) {
        return phy->reason == 0;
    }
    if (phy->link == LINK_BREAK) {
        return phy->reason == ANSWER_BREAK_RECEIVED;
    }
    return phy->reason == ANSWER_OPEN_TIMEOUT || phy->reason == ANSWER_PORT_LAYER_REQUEST;
}

static bool inbound_fits(const struct phy *phy)
{
    if (phy->link != LINK_SELECTED) {
        return phy->source == 0 && phy->inbound_protocol == 0;
    }
    return phy->inbound_protocol <= PROTOCOL_STP;
}

static bool connection_fits(const struct phy *phy)
{
    if (phy->port != PORT_CONNECTED) {
        return phy->connection_protocol == 0;
    }
    return phy->connection_protocol <= PROTOCOL_STP;
}

static bool far_closed_fits(const struct phy *phy)
{
    if (phy->link != LINK_CONNECTED) {
        return phy->far_closed == 0;
    }
    return phy->far_closed <= 1;
}

static bool accept_fits(const struct phy *phy)
{
    return phy->accept <= 1;
}

bool phy_is_valid(const struct phy *phy)
{
    return pair_fits(phy)
        && timer_fits(phy)
        && request_fits(phy)
        && part_fits(phy)
        && reason_fits(phy)
        && inbound_fits(phy)
        && connection_fits(phy)
        && far_closed_fits(phy)
        && accept_fits(phy);
}

/* ---- Moves shared by the rows ---- */

/* Timer, inbound open and far-closed belong to the link state left, so none of them is carried over. */
static void enter_link(struct phy *phy, uint64_t link)
{
    phy->link = link;
    phy->timer = link_is_timed(link) ? PHY_TIMER_START : 0;
    phy->source = 0;
    phy->inbound_protocol = 0;
    phy->far_closed = 0;
}

/* The part of a millisecond begins at 0 with the Open and is not carried out of P2. */
static void enter_port(struct phy *phy, uint64_t port)
{
    phy->port = port;
    phy->part = 0;
}

static void give_answer(struct phy_result *result, uint64_t answer)
{
    result->answer = answer;
    result->answered = result->phy.request;
}

/* For the rows that give their own answer or notice: the shared ones stay unsaid. */
static void go_idle(struct phy *phy)
{
    uint64_t accept = phy->accept;

    *phy = phy_fresh();
    phy->accept = accept;
}

static void enter_idle(struct phy_result *result)
{
    switch (result->phy.port) {
    case PORT_REQ_WAIT:
        give_answer(result, ANSWER_COLLIDED);
        break;
    case PORT_CONNECTED:
        result->notice = NOTICE_TRANSITION_TO_IDLE;
        break;
    case PORT_WAIT_FOR_CLOSE:
        give_answer(result, result->phy.reason);
        break;
    default:
        break;
    }
    go_idle(&result->phy);
}

static void become_connected(struct phy_result *result, uint64_t protocol)
{
    struct phy *phy = &result->phy;

    enter_link(phy, LINK_CONNECTED);
    enter_port(phy, PORT_CONNECTED);
    phy->request = (struct phy_request){0};
    phy->connection_protocol = protocol;
    result->notice = NOTICE_OPENED;
}

static void send_break(struct phy_result *result, uint64_t link)
{
    enter_link(&result->phy, link);
    result->sent = SENT_BREAK;
}

/* The answer waits in P4 until the link is idle, so it is given once only. */
static void give_up_open(struct phy_result *result, uint64_t link, uint64_t reason)
{
    send_break(result, link);
    enter_port(&result->phy, PORT_WAIT_FOR_CLOSE);
    result->phy.reason = reason;
}

/* ---- One function for each row ---- */

static void on_tx_open(struct phy_result *result, const struct phy_event *event)
{
    struct phy *phy = &result->phy;

    enter_port(phy, PORT_REQ_WAIT);
    phy->request = request_of(event);
    if (phy->link == LINK_IDLE) {
        enter_link(phy, LINK_ARB_SEL);
        result->sent = SENT_OPEN;
    }
}

static void on_cancel_open(struct phy_result *result)
{
    if (result->phy.link == LINK_ARB_SEL) {
        give_up_open(result, LINK_BREAK_WAIT, ANSWER_PORT_LAYER_REQUEST);
    }
}

static void on_close_connection(struct phy_result *result)
{
    result->sent = SENT_CLOSE;
    if (result->phy.far_closed == 0) {
        enter_link(&result->phy, LINK_DISCONNECT_WAIT);
        return;
    }
    result->notice = NOTICE_NORMAL;
    go_idle(&result->phy);
}

static void on_smp_transmit_break(struct phy_result *result)
{
    send_break(result, LINK_BREAK_WAIT);
    result->notice = NOTICE_BREAK_REQUESTED;
}

static void on_open_received(struct phy_result *result, const struct phy_event *event)
{
    struct phy *phy = &result->phy;

    if (phy->link != LINK_IDLE && phy->link != LINK_ARB_SEL) {
        return;
    }
    enter_link(phy, LINK_SELECTED);
    phy->source = event->argument[0];
    phy->inbound_protocol = event->argument[1];
}

static void on_open_accept(struct phy_result *result)
{
    if (result->phy.link != LINK_ARB_SEL) {
        return;
    }
    give_answer(result, ANSWER_OPENED);
    become_connected(result, result->phy.request.protocol);
}

static void on_open_reject(struct phy_result *result, const struct phy_event *event)
{
    if (result->phy.link == LINK_ARB_SEL) {
        give_answer(result, answer_to_reject[event->argument[0]]);
        go_idle(&result->phy);
        return;
    }
    if (result->phy.link == LINK_BREAK_WAIT) {
        enter_idle(result);
    }
}

static void on_aip(struct phy_result *result)
{
    if (result->phy.link == LINK_ARB_SEL) {
        result->phy.timer = PHY_TIMER_START;
    }
}

static void on_break(struct phy_result *result)
{
    switch (result->phy.link) {
    case LINK_ARB_SEL:
        give_up_open(result, LINK_BREAK, ANSWER_BREAK_RECEIVED);
        return;
    case LINK_SELECTED:
        send_break(result, LINK_BREAK);
        return;
    case LINK_CONNECTED:
    case LINK_DISCONNECT_WAIT:
        send_break(result, LINK_BREAK);
        result->notice = NOTICE_BREAK_RECEIVED;
        return;
    case LINK_BREAK_WAIT:
        enter_idle(result);
        return;
    default:
        return;
    }
}

static void on_close(struct phy_result *result)
{
    if (result->phy.link == LINK_CONNECTED) {
        result->phy.far_closed = 1;
        return;
    }
    if (result->phy.link == LINK_DISCONNECT_WAIT) {
        result->notice = NOTICE_NORMAL;
        go_idle(&result->phy);
    }
}

static void raise_wait(struct phy *phy)
{
    if (phy->port != PORT_REQ_WAIT || phy->request.wait == PHY_MOST_WAIT) {
        return;
    }
    if (phy->request.wait < PHY_SLOW_WAIT) {
        phy->request.wait++;
        return;
    }
    phy->part++;
    if (phy->part == PHY_MILLISECOND) {
        phy->part = 0;
        phy->request.wait++;
    }
}

static void run_timer(struct phy_result *result)
{
    struct phy *phy = &result->phy;

    phy->timer--;
    if (phy->timer > 0) {
        return;
    }
    switch (phy->link) {
    case LINK_ARB_SEL:
        give_up_open(result, LINK_BREAK_WAIT, ANSWER_OPEN_TIMEOUT);
        return;
    case LINK_DISCONNECT_WAIT:
        send_break(result, LINK_BREAK_WAIT);
        result->notice = NOTICE_CLOSE_TIMEOUT;
        return;
    default:
        enter_idle(result);
        return;
    }
}

static void settle_inbound_open(struct phy_result *result)
{
    const struct phy *phy = &result->phy;

    if (phy->accept == 0) {
        result->sent = SENT_OPEN_REJECT;
        enter_idle(result);
        return;
    }
    if (phy->port == PORT_REQ_WAIT) {
        bool same = phy->source == phy->request.destination;

        give_answer(result, same ? ANSWER_OPENED_BY_DESTINATION : ANSWER_OPENED_BY_OTHER);
    }
    result->sent = SENT_OPEN_ACCEPT;
    become_connected(result, phy->inbound_protocol);
}

static void on_tick(struct phy_result *result)
{
    raise_wait(&result->phy);
    switch (result->phy.link) {
    case LINK_ARB_SEL:
    case LINK_DISCONNECT_WAIT:
    case LINK_BREAK_WAIT:
        run_timer(result);
        return;
    case LINK_SELECTED:
        settle_inbound_open(result);
        return;
    case LINK_BREAK:
        enter_idle(result);
        return;
    default:
        return;
    }
}

static void on_reset(struct phy_result *result)
{
    if (request_is_kept(result->phy.port)) {
        give_answer(result, ANSWER_TERMINATED);
    }
    if (result->phy.port == PORT_CONNECTED) {
        result->notice = NOTICE_RESET;
    }
    result->phy = phy_fresh();
}

/* ---- The step ---- */

static uint64_t smp_break_refusal(const struct phy *phy)
{
    if (phy->link != LINK_CONNECTED) {
        return REFUSED_NOT_CONNECTED;
    }
    return phy->connection_protocol == PROTOCOL_SMP ? NOT_REFUSED : REFUSED_WRONG_PROTOCOL;
}

static uint64_t refusal_of(const struct phy *phy, const struct phy_event *event)
{
    if (!phy_is_valid(phy)) {
        return REFUSED_BAD_STATE;
    }
    if (!phy_event_is_valid(event)) {
        return REFUSED_BAD_EVENT;
    }
    switch (event->code) {
    case EVENT_TX_OPEN:
        return phy->port == PORT_IDLE ? NOT_REFUSED : REFUSED_BUSY;
    case EVENT_CANCEL_OPEN:
        return phy->port == PORT_REQ_WAIT ? NOT_REFUSED : REFUSED_NOTHING_PENDING;
    case EVENT_CLOSE_CONNECTION:
        return phy->link == LINK_CONNECTED ? NOT_REFUSED : REFUSED_NOT_CONNECTED;
    case EVENT_SMP_TRANSMIT_BREAK:
        return smp_break_refusal(phy);
    default:
        return NOT_REFUSED;
    }
}

/* What our own side asks for. */
static void take_local_event(struct phy_result *result, const struct phy_event *event)
{
    switch (event->code) {
    case EVENT_TX_OPEN:
        on_tx_open(result, event);
        return;
    case EVENT_CANCEL_OPEN:
        on_cancel_open(result);
        return;
    case EVENT_CLOSE_CONNECTION:
        on_close_connection(result);
        return;
    case EVENT_SMP_TRANSMIT_BREAK:
        on_smp_transmit_break(result);
        return;
    case EVENT_ACCEPT_OPENS:
        result->phy.accept = 1;
        return;
    default:
        result->phy.accept = 0;
        return;
    }
}

/* What arrives on the wire, the tick and the two resets. */
static void take_outer_event(struct phy_result *result, const struct phy_event *event)
{
    switch (event->code) {
    case EVENT_OPEN_RECEIVED:
        on_open_received(result, event);
        return;
    case EVENT_OPEN_ACCEPT:
        on_open_accept(result);
        return;
    case EVENT_OPEN_REJECT:
        on_open_reject(result, event);
        return;
    case EVENT_AIP:
        on_aip(result);
        return;
    case EVENT_BREAK:
        on_break(result);
        return;
    case EVENT_CLOSE:
        on_close(result);
        return;
    case EVENT_TICK:
        on_tick(result);
        return;
    default:
        on_reset(result);
        return;
    }
}

struct phy_result phy_step(struct phy phy, struct phy_event event)
{
    struct phy_result result = {.refusal = refusal_of(&phy, &event), .phy = phy};

    if (result.refusal != NOT_REFUSED) {
        return result;
    }
    if (event.code <= EVENT_REJECT_OPENS) {
        take_local_event(&result, &event);
    } else {
        take_outer_event(&result, &event);
    }
    return result;
}
