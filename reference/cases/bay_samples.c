#include "bay_samples.h"

#include "phy_samples.h"

#include <assert.h>

const struct phy_pair valid_pairs[VALID_PAIRS] = {
    {LINK_IDLE, PORT_IDLE}, {LINK_SELECTED, PORT_IDLE}, {LINK_BREAK, PORT_IDLE},
    {LINK_ARB_SEL, PORT_REQ_WAIT}, {LINK_SELECTED, PORT_REQ_WAIT}, {LINK_BREAK, PORT_REQ_WAIT},
    {LINK_CONNECTED, PORT_CONNECTED}, {LINK_DISCONNECT_WAIT, PORT_CONNECTED},
    {LINK_BREAK_WAIT, PORT_CONNECTED}, {LINK_BREAK, PORT_CONNECTED},
    {LINK_BREAK_WAIT, PORT_WAIT_FOR_CLOSE}, {LINK_BREAK, PORT_WAIT_FOR_CLOSE}
};

static const uint64_t timers[] = {1, 2, 500, 999, 1000};
enum { TIMERS = sizeof timers / sizeof timers[0] };

/* The ends of both slopes. */
static const struct {
    uint64_t wait;
    uint64_t part;
} waits[] = {
    {0, 0}, {32767, 0}, {32768, 0}, {32768, 1}, {32768, 500}, {32768, 999}, {65534, 999}, {65535, 0}
};
enum { WAITS = sizeof waits / sizeof waits[0] };

/* No field that the pair uses is zero but for the flags, so one that is lost shows. */
struct phy pair_record(struct phy_pair pair)
{
    return sample_record(pair.link, pair.port, 1);
}

/* ---- Values of one field ---- */

typedef void field_setter(struct phy *phy, size_t which);

/* The accept flag decides nothing while a timer runs; by turns it is either. */
static void set_timer(struct phy *phy, size_t which)
{
    phy->timer = timers[which];
    phy->accept = which % 2;
}

static void set_wait(struct phy *phy, size_t which)
{
    phy->request.wait = waits[which].wait;
    phy->part = waits[which].part;
}

static void set_source(struct phy *phy, size_t which)
{
    phy->source = which == 0 ? WANTED_ADDRESS : OTHER_ADDRESS;
}

static void set_reason(struct phy *phy, size_t which)
{
    phy->reason = which == 0 ? ANSWER_OPEN_TIMEOUT : ANSWER_PORT_LAYER_REQUEST;
}

static void set_far_closed(struct phy *phy, size_t which)
{
    phy->far_closed = which;
}

static void set_accept(struct phy *phy, size_t which)
{
    phy->accept = which;
}

/* Each record once with each value. */
static void vary(struct record_list *list, size_t values, field_setter *set)
{
    const struct record_list before = *list;

    assert(before.count * values <= MOST_RECORDS);
    list->count = 0;
    for (size_t i = 0; i < before.count; i++) {
        for (size_t which = 0; which < values; which++) {
            struct phy *phy = &list->records[list->count];

            *phy = before.records[i];
            set(phy, which);
            list->count++;
        }
    }
}

/* ---- Records ---- */

struct record_list gap_records(struct phy_pair pair)
{
    struct record_list list = {.count = 1, .records = {pair_record(pair)}};

    if (list.records[0].timer != 0) {
        vary(&list, TIMERS, set_timer);
    } else {
        vary(&list, 2, set_accept);
    }
    if (pair.port == PORT_REQ_WAIT) {
        vary(&list, WAITS, set_wait);
    }
    if (pair.port == PORT_REQ_WAIT && pair.link == LINK_SELECTED) {
        vary(&list, 2, set_source);
    }
    if (pair.port == PORT_WAIT_FOR_CLOSE && pair.link == LINK_BREAK_WAIT) {
        vary(&list, 2, set_reason);
    }
    if (pair.link == LINK_CONNECTED) {
        vary(&list, 2, set_far_closed);
    }
    return list;
}

struct bay bay_with_base(struct phy phy, uint64_t base)
{
    return (struct bay){.phy = phy, .base = base, .base_set = 1};
}

struct bay bay_without_base(struct phy phy)
{
    return (struct bay){.phy = phy, .base = 0, .base_set = 0};
}
