#include "port.h"

#include "refusals.h"

#include <assert.h>
#include <string.h>

/* ---- The queue ---- */

static uint64_t *open_at(const struct port *port, size_t which)
{
    return port->queue + which * PHY_ARGUMENTS;
}

static bool numbers_are_zero(const uint64_t *numbers, size_t count)
{
    for (size_t i = 0; i < count; i++) {
        if (numbers[i] != 0) {
            return false;
        }
    }
    return true;
}

static bool open_fits(const uint64_t open[PHY_ARGUMENTS])
{
    for (size_t i = 0; i < PHY_ARGUMENTS; i++) {
        if (!phy_argument_fits(EVENT_TX_OPEN, i, open[i])) {
            return false;
        }
    }
    return true;
}

/* No rate is 0, so an Open in use is never all zero: the first that is ends the row of them. */
size_t port_waiting(const struct port *port)
{
    size_t waiting = 0;

    while (waiting < QUEUE_MOST_OPENS && !numbers_are_zero(open_at(port, waiting), PHY_ARGUMENTS)) {
        waiting++;
    }
    return waiting;
}

static bool queue_fits(const struct port *port)
{
    if (port->length != QUEUE_NUMBERS) {
        return false;
    }

    size_t waiting = port_waiting(port);

    for (size_t i = 0; i < waiting; i++) {
        if (!open_fits(open_at(port, i))) {
            return false;
        }
    }
    return numbers_are_zero(open_at(port, waiting), (QUEUE_MOST_OPENS - waiting) * PHY_ARGUMENTS);
}

static void join_queue(const struct port *port, const uint64_t open[PHY_ARGUMENTS])
{
    size_t waiting = port_waiting(port);

    assert(waiting < QUEUE_MOST_OPENS);
    memcpy(open_at(port, waiting), open, PHY_ARGUMENTS * sizeof *open);
}

/* The others move up by one, and the last place is left empty. */
static struct phy_event leave_queue(const struct port *port)
{
    struct phy_event open = {.code = EVENT_TX_OPEN};
    const size_t rest = QUEUE_NUMBERS - PHY_ARGUMENTS;

    memcpy(open.argument, open_at(port, 0), sizeof open.argument);
    memmove(open_at(port, 0), open_at(port, 1), rest * sizeof *port->queue);
    memset(port->queue + rest, 0, PHY_ARGUMENTS * sizeof *port->queue);
    return open;
}

/* ---- Valid ports ---- */

bool port_bay_is_free(const struct bay *bay)
{
    return bay->phy.link == LINK_IDLE && bay->phy.port == PORT_IDLE;
}

size_t port_lowest_free(const struct port *port)
{
    size_t number = 0;

    while (number < port->count && !port_bay_is_free(&port->bays[number])) {
        number++;
    }
    return number;
}

static bool row_fits(const struct port *port)
{
    if (port->count < 1 || port->count > PORT_MOST_BAYS) {
        return false;
    }
    for (size_t i = 0; i < port->count; i++) {
        if (!bay_is_valid(&port->bays[i])) {
            return false;
        }
    }
    return true;
}

static bool open_waits_beside_free_phy(const struct port *port)
{
    return port_waiting(port) > 0 && port_lowest_free(port) < port->count;
}

bool port_is_valid(const struct port *port)
{
    return row_fits(port) && queue_fits(port) && !open_waits_beside_free_phy(port);
}

/* ---- Refusals ---- */

static bool event_may_go_there(const struct shelf_event *event)
{
    return event->number != THE_PORT_ITSELF || event->event.code == EVENT_TX_OPEN;
}

uint64_t port_refusal(const struct port *port, const struct shelf_event *event)
{
    if (!port_is_valid(port)) {
        return REFUSED_BAD_STATE;
    }
    if (!bay_event_is_valid(&event->event) || !event_may_go_there(event)) {
        return REFUSED_BAD_EVENT;
    }
    if (event->number != THE_PORT_ITSELF && event->number >= port->count) {
        return REFUSED_NO_SUCH_PHY;
    }
    if (event->number == THE_PORT_ITSELF && port_waiting(port) == QUEUE_MOST_OPENS) {
        return REFUSED_QUEUE_FULL;
    }
    return NOT_REFUSED;
}

/* ---- The step ---- */

static struct port_result port_reports(uint64_t refusal)
{
    return (struct port_result){.refusal = refusal, .handed = HANDED_TO_NONE};
}

static struct port_result take_phy_event(const struct port *port, const struct shelf_event *event)
{
    struct bay *bay = &port->bays[event->number];
    struct bay_result step = bay_step(*bay, event->event);
    struct port_result result = port_reports(step.refusal);

    if (step.refusal != NOT_REFUSED) {
        return result;
    }
    *bay = step.bay;
    result.answer = step.answer;
    result.notice = step.notice;
    result.second_notice = step.second_notice;
    result.sent = step.sent;
    result.answered = step.answered;
    return result;
}

static struct port_result take_event(const struct port *port, const struct shelf_event *event)
{
    if (event->number != THE_PORT_ITSELF) {
        return take_phy_event(port, event);
    }
    join_queue(port, event->event.argument);
    return port_reports(NOT_REFUSED);
}

/* The Open goes as any Tx Open does, with the wait it came with. */
static void hand_oldest_to(const struct port *port, size_t number, struct port_result *result)
{
    struct bay_result step = bay_step(port->bays[number], leave_queue(port));

    assert(step.refusal == NOT_REFUSED);
    port->bays[number] = step.bay;
    result->handed = number;
    result->handed_sent = step.sent.code;
}

/* An event frees one phy or brings one Open, and before it none waited beside a free phy: so it is once at most. */
static void hand_out(const struct port *port, struct port_result *result)
{
    while (open_waits_beside_free_phy(port)) {
        assert(result->handed == HANDED_TO_NONE);
        hand_oldest_to(port, port_lowest_free(port), result);
    }
}

/* A stamp's whole gap is over when the hand-out begins. */
struct port_result port_step(struct port port, struct shelf_event event)
{
    uint64_t refusal = port_refusal(&port, &event);

    if (refusal != NOT_REFUSED) {
        return port_reports(refusal);
    }

    struct port_result result = take_event(&port, &event);

    if (result.refusal == NOT_REFUSED) {
        hand_out(&port, &result);
    }
    return result;
}
