#include "cases.h"

#include "bay_samples.h"
#include "phy_samples.h"
#include "port_walk.h"
#include "stamp_samples.h"

#include <assert.h>

enum {
    BASE = 1000,
    MOST_FREEINGS = 80,
    RANDOM_EVENTS = 110,
    /* A random walk fills the queue for so many events, and for the rest of the period empties it. */
    FILLING_EVENTS = 48,
    PERIOD = 72
};

static const size_t row_lengths[] = {1, 2, 7, 8};
enum { ROW_LENGTHS = sizeof row_lengths / sizeof row_lengths[0] };

static const struct phy_event hard_reset = {.code = EVENT_HARD_RESET};

static struct bay with_base(struct bay bay)
{
    return bay_with_base(bay.phy, BASE);
}

static void walk_events(
    struct case_file *file, const struct port_box *start, const struct shelf_event *events, size_t count)
{
    struct port_walk walk;

    port_walk_start(&walk, start);
    for (size_t i = 0; i < count; i++) {
        port_walk_add(&walk, events[i]);
    }
    port_walk_write(file, &walk);
}

#define WALK(file, start, events) walk_events(file, start, events, sizeof events / sizeof events[0])

/* ---- Full queues ---- */

static void add_opens(struct port_walk *walk, uint64_t from, uint64_t to)
{
    for (uint64_t i = from; i < to; i++) {
        port_walk_add(walk, to_port(numbered_open(i)));
    }
}

/* The first go to the phys in turn; then the queue fills up, and the last Open is one too many. Each phy that is freed
 * makes room for one more. */
static void fill_queue(struct case_file *file, size_t count)
{
    const struct port_box start = fresh_box(count);
    const uint64_t fits = count + QUEUE_MOST_OPENS;
    struct port_walk walk;

    port_walk_start(&walk, &start);
    add_opens(&walk, 0, fits + 1);
    port_walk_add(&walk, to_phy(count - 1, hard_reset));
    add_opens(&walk, fits, fits + 2);
    port_walk_add(&walk, to_phy(0, plain_event(EVENT_OPEN_ACCEPT)));
    add_opens(&walk, fits, fits + 1);
    port_walk_write(file, &walk);
}

/* With 31 waiting and with 32. */
static void begin_with_queue(struct case_file *file, size_t waiting)
{
    const struct shelf_event events[] = {
        to_port(numbered_open(40)), to_port(numbered_open(41)), to_phy(1, hard_reset), to_port(numbered_open(42)),
        to_port(numbered_open(43))
    };
    struct port_box start = connected_box(2);

    box_add_opens(&start, waiting);
    WALK(file, &start, events);
}

/* To the last one, and then the phys stay free. */
static void empty_queue(struct case_file *file, size_t count)
{
    struct port_box start = connected_box(count);
    struct port_walk walk;

    box_add_opens(&start, QUEUE_MOST_OPENS);
    port_walk_start(&walk, &start);
    for (uint64_t i = 0; i <= QUEUE_MOST_OPENS + 1; i++) {
        port_walk_add(&walk, to_phy(i % count, hard_reset));
    }
    port_walk_write(file, &walk);
}

/* ---- The lowest-numbered free phy ---- */

static void open_beside_free(struct case_file *file, unsigned free_phys)
{
    struct port_box start = connected_box(PORT_MOST_BAYS);
    struct port_walk walk;

    for (size_t i = 0; i < PORT_MOST_BAYS; i++) {
        if ((free_phys >> i & 1) != 0) {
            start.bays[i] = bay_fresh();
        }
    }
    port_walk_start(&walk, &start);
    while (port_walk_add(&walk, to_port(numbered_open(walk.count))).handed != HANDED_TO_NONE) {
    }
    port_walk_write(file, &walk);
}

static void open_beside_every_pattern(struct case_file *file)
{
    static const unsigned patterns[] = {0x80, 0x50, 0xA5, 0xFF};

    for (size_t i = 0; i < sizeof patterns / sizeof patterns[0]; i++) {
        open_beside_free(file, patterns[i]);
    }
}

/* P1 alone makes no phy free: beside L2 and L6 an Open waits. */
static void wait_beside_nearly_free(struct case_file *file)
{
    const struct shelf_event events[] = {
        to_port(numbered_open(1)), to_port(numbered_open(2)), to_phy(1, plain_event(EVENT_TICK)),
        to_port(numbered_open(3)), to_phy(0, plain_event(EVENT_TICK))
    };
    struct port_box start = fresh_box(2);

    start.bays[0] = sample_bay(LINK_SELECTED, PORT_IDLE);
    start.bays[1] = sample_bay(LINK_BREAK, PORT_IDLE);
    WALK(file, &start, events);
}

/* ---- Every event that frees a phy, from every pair of states ---- */

struct freeing {
    struct bay bay;
    struct phy_event event;
};

struct freeing_list {
    size_t count;
    struct freeing freeings[MOST_FREEINGS];
};

/* One tick before the timer's end, and with the far side closed: so that as many events as can be free it. */
static struct bay nearly_done(struct phy_pair pair)
{
    struct bay bay = with_base(bay_without_base(pair_record(pair)));

    bay.phy.accept = 0;
    if (bay.phy.timer != 0) {
        bay.phy.timer = 1;
    }
    if (bay.phy.link == LINK_CONNECTED) {
        bay.phy.far_closed = 1;
    }
    return bay;
}

static void list_if_freeing(struct freeing_list *list, const struct bay *bay, struct phy_event event)
{
    if (event_frees(bay, &event)) {
        assert(list->count < MOST_FREEINGS);
        list->freeings[list->count] = (struct freeing){*bay, event};
        list->count++;
    }
}

/* The longer gaps go on when the phy has been free for long. */
static void list_freeings(struct freeing_list *list, const struct bay *bay)
{
    static const uint64_t gaps[] = {1, 1001, 5000};

    for (uint64_t code = EVENT_TX_OPEN; code <= EVENT_PHY_DISABLED; code++) {
        list_if_freeing(list, bay, sample_event(code));
    }
    for (size_t i = 0; i < sizeof gaps / sizeof gaps[0]; i++) {
        list_if_freeing(list, bay, stamp_behind(BASE, gaps[i]));
    }
}

/* Not in the row's order, so that the order of the queue shows against it. */
static void free_row(struct case_file *file, const struct freeing *freeings, size_t count, size_t waiting)
{
    struct port_box start = fresh_box(count);
    struct port_walk walk;

    for (size_t i = 0; i < count; i++) {
        start.bays[i] = freeings[i].bay;
    }
    box_add_opens(&start, waiting);
    port_walk_start(&walk, &start);
    for (size_t i = 0; i < count; i++) {
        size_t number = count - 1 - i;

        port_walk_add(&walk, to_phy(number, freeings[number].event));
    }
    port_walk_write(file, &walk);
}

/* With as many Opens as phys, and with more. */
static void free_every_way(struct case_file *file)
{
    static const size_t waiting[] = {8, 9, 11, 32};
    struct freeing_list list = {.count = 0};
    size_t row = 0;

    for (size_t i = 1; i < VALID_PAIRS; i++) {
        struct bay bay = nearly_done(valid_pairs[i]);

        list_freeings(&list, &bay);
    }
    for (size_t from = 0; from < list.count; from += PORT_MOST_BAYS) {
        size_t left = list.count - from;
        size_t count = left < PORT_MOST_BAYS ? left : PORT_MOST_BAYS;

        free_row(file, list.freeings + from, count, waiting[row % (sizeof waiting / sizeof waiting[0])]);
        row++;
    }
}

/* ---- Events that do not free one leave the queue ---- */

static struct phy_event quiet_event(uint64_t code)
{
    return code == EVENT_TIME_STAMP ? stamp_at(77) : sample_event(code);
}

/* Each code in turn to where the ones before have led, refused ones among them. */
static void keep_queue(struct case_file *file, size_t first_pair, uint64_t accept)
{
    struct port_box start = fresh_box(PORT_MOST_BAYS);
    struct port_walk walk;

    for (size_t i = 0; i < PORT_MOST_BAYS; i++) {
        start.bays[i] = bay_without_base(pair_record(valid_pairs[first_pair + i]));
        start.bays[i].phy.accept = accept;
    }
    box_add_opens(&start, 3);
    port_walk_start(&walk, &start);
    for (uint64_t code = EVENT_TX_OPEN; code <= EVENT_TIME_STAMP; code++) {
        for (size_t i = 0; i < PORT_MOST_BAYS; i++) {
            struct phy_event event = quiet_event(code);

            if (!event_frees(&walk.now.bays[i], &event)) {
                port_walk_add(&walk, to_phy(i, event));
            }
        }
    }
    port_walk_write(file, &walk);
}

/* ---- Opens straight to a phy ---- */

static void open_straight(struct case_file *file, uint64_t link)
{
    const struct shelf_event events[] = {
        to_phy(0, numbered_open(20)), to_phy(1, numbered_open(21)), to_phy(1, numbered_open(22)),
        to_port(numbered_open(23)), to_phy(1, plain_event(EVENT_TICK)), to_phy(1, numbered_open(24)),
        to_phy(1, plain_event(EVENT_OPEN_ACCEPT))
    };
    struct port_box start = connected_box(2);

    start.bays[1] = sample_bay(link, PORT_IDLE);
    box_add_opens(&start, 3);
    WALK(file, &start, events);
}

/* Nobody waits; one that goes past a free phy of a lower number is not moved to it. */
static void open_straight_to_free(struct case_file *file)
{
    const struct shelf_event events[] = {
        to_phy(5, numbered_open(9)), to_phy(2, numbered_open(8)), to_port(numbered_open(7)),
        to_phy(0, numbered_open(6)), to_port(numbered_open(5)), to_phy(1, numbered_open(4))
    };
    const struct port_box start = fresh_box(7);

    WALK(file, &start, events);
}

/* A Retry Open is not queued again, whether another waits or not. */
static void retry_open(struct case_file *file)
{
    const struct port_box start = fresh_box(1);
    struct port_walk walk;

    port_walk_start(&walk, &start);
    for (uint64_t reason = 0; reason < 8; reason++) {
        const struct phy_event reject = {EVENT_OPEN_REJECT, {reason}};

        port_walk_add(&walk, to_port(numbered_open(2 * reason)));
        port_walk_add(&walk, to_port(numbered_open(2 * reason + 1)));
        port_walk_add(&walk, to_phy(0, reject));
        port_walk_add(&walk, to_phy(0, reject));
        port_walk_add(&walk, to_phy(0, plain_event(EVENT_TICK)));
    }
    port_walk_write(file, &walk);
}

/* 51, then 52 and 53, which leave the phy in a connection. */
static void retry_selected(struct case_file *file)
{
    const struct shelf_event events[] = {
        to_port(numbered_open(1)), to_port(numbered_open(2)), to_port(numbered_open(3)), to_port(numbered_open(4)),
        to_phy(0, (struct phy_event){EVENT_OPEN_RECEIVED, {1, PROTOCOL_SMP}}),
        to_phy(0, plain_event(EVENT_TICK)),
        to_phy(0, plain_event(EVENT_ACCEPT_OPENS)),
        to_phy(0, (struct phy_event){EVENT_OPEN_RECEIVED, {2, PROTOCOL_SMP}}),
        to_phy(0, plain_event(EVENT_TICK)),
        to_phy(0, plain_event(EVENT_SMP_TRANSMIT_BREAK)),
        to_phy(0, plain_event(EVENT_BREAK)),
        to_phy(0, (struct phy_event){EVENT_OPEN_RECEIVED, {9, PROTOCOL_SSP}}),
        to_phy(0, plain_event(EVENT_TICK)),
        to_phy(0, plain_event(EVENT_CLOSE_CONNECTION)),
        to_phy(0, plain_event(EVENT_CLOSE))
    };
    const struct port_box start = fresh_box(1);

    WALK(file, &start, events);
}

/* ---- Stamps ---- */

/* The gap goes on for long after the phy is free, and the Open has none of it: neither in its wait nor in the timer
 * that is left. The next gap is the Open's own. */
static void free_early_in_gap(struct case_file *file, uint64_t link, uint64_t port, uint64_t wait)
{
    const struct shelf_event events[] = {
        to_phy(0, stamp_behind(BASE, 5000)), to_phy(0, stamp_behind(BASE, 5999))
    };
    struct port_box start = fresh_box(1);
    struct phy_event open = numbered_open(5);

    start.bays[0] = with_base(sample_bay(link, port));
    open.argument[5] = wait;
    box_add_open(&start, open);
    box_add_opens(&start, 1);
    walk_events(file, &start, events, 1);
    walk_events(file, &start, events, 2);
}

/* Each counts from its own, one of them past the counter's end. */
static void stamp_two_bays(struct case_file *file)
{
    const struct shelf_event events[] = {
        to_phy(0, stamp_at(100)), to_phy(1, stamp_at(BAY_MOST_COUNTER - 499)),
        to_port(numbered_open(1)), to_port(numbered_open(2)), to_port(numbered_open(3)), to_port(numbered_open(4)),
        to_phy(0, stamp_at(1099)), to_phy(1, stamp_at(BAY_MOST_COUNTER)), to_phy(1, stamp_at(500)),
        to_phy(0, stamp_at(1100)), to_phy(1, stamp_at(1499)), to_phy(1, stamp_at(1500)),
        to_phy(0, plain_event(EVENT_TICK)), to_phy(0, stamp_at(2098)), to_phy(0, stamp_at(2099)),
        to_phy(1, hard_reset), to_phy(1, stamp_at(1499)), to_phy(0, stamp_at(2099))
    };
    const struct port_box start = fresh_box(2);

    WALK(file, &start, events);
}

/* The Open's wait is as it came, however many ticks pass while it is in the queue. */
static void wait_in_queue(struct case_file *file)
{
    static const uint64_t waits[] = {0, 32767, 32768, 65535};
    const struct shelf_event events[] = {
        to_phy(0, plain_event(EVENT_TICK)), to_phy(1, stamp_at(5)), to_phy(1, stamp_at(100005)),
        to_phy(0, hard_reset), to_phy(0, plain_event(EVENT_OPEN_ACCEPT)), to_phy(0, hard_reset),
        to_phy(0, plain_event(EVENT_TICK)), to_phy(0, plain_event(EVENT_OPEN_ACCEPT)), to_phy(1, hard_reset),
        to_phy(0, hard_reset), to_phy(1, plain_event(EVENT_OPEN_ACCEPT)), to_phy(0, plain_event(EVENT_OPEN_ACCEPT))
    };
    struct port_box start = connected_box(2);

    for (size_t i = 0; i < sizeof waits / sizeof waits[0]; i++) {
        struct phy_event open = numbered_open(i);

        open.argument[5] = waits[i];
        box_add_open(&start, open);
    }
    WALK(file, &start, events);
}

/* ---- At random ---- */

static void harm_an_argument(struct case_file *file, struct phy_event *event)
{
    uint64_t which = case_random_below(file, PHY_ARGUMENTS);

    event->argument[which] = case_random(file);
}

static void walk_at_random(struct case_file *file, size_t count)
{
    const struct port_box start = fresh_box(count);
    struct port_walk walk;

    port_walk_start(&walk, &start);
    for (size_t i = 0; i < RANDOM_EVENTS; i++) {
        uint64_t opens_in_twelve = i % PERIOD < FILLING_EVENTS ? 9 : 1;
        struct shelf_event event = random_shelf_event(file, &walk.now, opens_in_twelve);

        if (case_random_one_in(file, 40)) {
            harm_an_argument(file, &event.event);
        }
        port_walk_add(&walk, event);
    }
    port_walk_write(file, &walk);
}

void make_port_cases(struct case_file *file)
{
    for (size_t i = 0; i < ROW_LENGTHS; i++) {
        fill_queue(file, row_lengths[i]);
    }
    begin_with_queue(file, QUEUE_MOST_OPENS - 1);
    begin_with_queue(file, QUEUE_MOST_OPENS);
    empty_queue(file, 7);
    open_beside_every_pattern(file);
    wait_beside_nearly_free(file);
    free_every_way(file);
    keep_queue(file, 1, 0);
    keep_queue(file, 4, 1);
    open_straight(file, LINK_SELECTED);
    open_straight(file, LINK_BREAK);
    open_straight_to_free(file);
    retry_open(file);
    retry_selected(file);
    free_early_in_gap(file, LINK_BREAK, PORT_CONNECTED, 7);
    free_early_in_gap(file, LINK_ARB_SEL, PORT_REQ_WAIT, 32767);
    free_early_in_gap(file, LINK_SELECTED, PORT_IDLE, 65535);
    stamp_two_bays(file);
    wait_in_queue(file);
    for (size_t i = 0; i < ROW_LENGTHS; i++) {
        walk_at_random(file, row_lengths[i]);
    }
}
