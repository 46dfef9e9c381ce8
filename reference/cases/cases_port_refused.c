#include "cases.h"

#include "bay_samples.h"
#include "phy_samples.h"
#include "port_walk.h"
#include "stamp_samples.h"

#include <string.h>

/* ---- Ports that take events, and the order in which they refuse them ---- */

static struct phy_event slow_open(void)
{
    struct phy_event open = numbered_open(3);

    open.argument[2] = RATE_1_5_GBPS - 1;
    return open;
}

static void add_every_refusal(struct port_walk *walk, uint64_t number)
{
    const struct phy_event events[] = {
        plain_event(EVENT_CANCEL_OPEN), plain_event(0), plain_event(EVENT_TIME_STAMP + 1), stamp_at(77),
        stamp_at(PAST_32_BITS), slow_open(), numbered_open(3), {EVENT_CLOSE_CONNECTION, {0, 0, 1}}
    };

    for (size_t i = 0; i < sizeof events / sizeof events[0]; i++) {
        port_walk_add(walk, to_phy(number, events[i]));
    }
}

static void add_row_end(struct port_walk *walk)
{
    add_every_refusal(walk, walk->start.count - 1);
    add_every_refusal(walk, walk->start.count);
}

/* What lies about 127, and numbers whose low bits alone would pass. */
static void add_far_numbers(struct port_walk *walk)
{
    static const uint64_t numbers[] = {
        126, THE_PORT_ITSELF, 128, 200, PAST_8_BITS, PAST_8_BITS + THE_PORT_ITSELF, PAST_32_BITS + THE_PORT_ITSELF,
        UINT64_MAX
    };

    for (size_t i = 0; i < sizeof numbers / sizeof numbers[0]; i++) {
        add_every_refusal(walk, numbers[i]);
    }
}

/* For a short row, a phy that only a longer one has, and the port itself, will do. */
static void refuse_numbers(struct case_file *file, size_t count, size_t waiting)
{
    struct port_box start = connected_box(count);
    struct port_walk walk;

    box_add_opens(&start, waiting);
    port_walk_start(&walk, &start);
    add_row_end(&walk);
    if (count == PORT_MOST_BAYS) {
        add_far_numbers(&walk);
    } else {
        add_every_refusal(&walk, PORT_MOST_BAYS - 1);
        add_every_refusal(&walk, THE_PORT_ITSELF);
    }
    port_walk_write(file, &walk);
}

/* Every argument of a Tx Open at its ends and just outside. */
static void add_listed_opens(struct port_walk *walk)
{
    for (size_t i = 0; i < argument_ends_count && argument_ends[i].code == EVENT_TX_OPEN; i++) {
        for (size_t k = 0; k < argument_ends[i].count; k++) {
            struct phy_event open = numbered_open(3);

            open.argument[argument_ends[i].which] = argument_ends[i].values[k];
            port_walk_add(walk, to_port(open));
        }
    }
}

/* Only Tx Open may go to the port itself; its arguments are judged before the queue's length. */
static void refuse_to_port(struct case_file *file, size_t waiting)
{
    struct port_box start = connected_box(1);
    struct port_walk walk;

    box_add_opens(&start, waiting);
    port_walk_start(&walk, &start);
    for (uint64_t code = 0; code <= EVENT_TIME_STAMP + 1; code++) {
        port_walk_add(&walk, to_port(sample_event(code)));
    }
    add_listed_opens(&walk);
    port_walk_write(file, &walk);
}

/* What a phy refuses is not moved to one of the free phys behind it. */
static void refuse_by_phy(struct case_file *file)
{
    static const uint64_t codes[] = {
        EVENT_TX_OPEN, EVENT_CANCEL_OPEN, EVENT_CLOSE_CONNECTION, EVENT_SMP_TRANSMIT_BREAK
    };
    struct port_box start = fresh_box(7);
    struct port_walk walk;

    start.bays[0] = sample_bay(LINK_ARB_SEL, PORT_REQ_WAIT);
    start.bays[1] = sample_bay(LINK_CONNECTED, PORT_CONNECTED);
    start.bays[2] = sample_bay(LINK_DISCONNECT_WAIT, PORT_CONNECTED);
    start.bays[3] = sample_bay(LINK_BREAK_WAIT, PORT_WAIT_FOR_CLOSE);
    start.bays[4] = sample_bay(LINK_BREAK, PORT_IDLE);
    port_walk_start(&walk, &start);
    for (size_t i = 0; i < sizeof codes / sizeof codes[0]; i++) {
        for (uint64_t number = 0; number < start.count; number++) {
            port_walk_add(&walk, to_phy(number, sample_event(codes[i])));
        }
    }
    port_walk_write(file, &walk);
}

/* ---- Ports that are not valid: every event is refused with 1, whatever else is wrong with it ---- */

/* On a port that is valid after all, they show that too: a reset is taken in every state. */
static void judge_port(struct case_file *file, const struct port_box *start)
{
    const struct shelf_event events[] = {
        to_phy(200, plain_event(0)), to_phy(200, plain_event(EVENT_CANCEL_OPEN)), to_port(numbered_open(3)),
        to_phy(0, plain_event(EVENT_HARD_RESET))
    };
    struct port_walk walk;

    port_walk_start(&walk, start);
    for (size_t i = 0; i < sizeof events / sizeof events[0]; i++) {
        port_walk_add(&walk, events[i]);
    }
    port_walk_write(file, &walk);
}

static void judge_row_lengths(struct case_file *file)
{
    struct port_box none = fresh_box(0);
    struct port_box nine = fresh_box(BOX_BAYS);
    struct port_box nine_busy = connected_box(BOX_BAYS);

    judge_port(file, &none);
    box_add_opens(&none, 1);
    judge_port(file, &none);
    judge_port(file, &nine);
    box_add_opens(&nine_busy, 2);
    judge_port(file, &nine_busy);
}

enum { BAD_WAYS = 8 };

/* In a fresh record or in one of a connection. */
static void spoil(struct bay *bay, size_t way)
{
    switch (way) {
    case 0:
        bay->phy.accept = 2;
        return;
    case 1:
        bay->phy.link = LINK_BREAK + 1;
        return;
    case 2:
        bay->base_set = 2;
        return;
    case 3:
        bay->base = 1;
        return;
    case 4:
        bay->phy.timer = 1;
        return;
    case 5:
        *bay = bay_with_base(bay->phy, PAST_32_BITS);
        return;
    case 6:
        bay->phy.port = 0;
        return;
    default:
        bay->phy.request.rate = RATE_3_GBPS;
        return;
    }
}

/* At each place of the row, and the others are as they should be. */
static void judge_every_place(struct case_file *file)
{
    for (size_t place = 0; place < PORT_MOST_BAYS; place++) {
        struct port_box fresh = fresh_box(PORT_MOST_BAYS);
        struct port_box busy = connected_box(PORT_MOST_BAYS);

        spoil(&fresh.bays[place], place % BAD_WAYS);
        judge_port(file, &fresh);
        spoil(&busy.bays[place], (place + 3) % BAD_WAYS);
        box_add_opens(&busy, 2);
        judge_port(file, &busy);
    }
}

static void judge_queue_lengths(struct case_file *file)
{
    static const size_t lengths[] = {0, 6, QUEUE_NUMBERS - 1, QUEUE_NUMBERS + 1};

    for (size_t i = 0; i < sizeof lengths / sizeof lengths[0]; i++) {
        struct port_box empty = fresh_box(1);
        struct port_box box = connected_box(1);

        empty.length = lengths[i];
        judge_port(file, &empty);
        box_add_opens(&box, i % 2 == 0 ? QUEUE_MOST_OPENS : 1);
        box.length = lengths[i];
        judge_port(file, &box);
    }
}

/* ---- Queues that are not valid ---- */

struct queue_harm {
    size_t open;
    size_t which;
    uint64_t value;
};

/* Of 32 Opens or of a few; those behind the few have only this one number. */
static void judge_queue_harm(struct case_file *file, size_t waiting, const struct queue_harm *harm)
{
    struct port_box box = connected_box(1);

    box_add_opens(&box, waiting);
    box.queue[harm->open * PHY_ARGUMENTS + harm->which] = harm->value;
    judge_port(file, &box);
}

static void judge_full_queues(struct case_file *file)
{
    static const struct queue_harm harms[] = {
        {0, 0, UINT64_MAX}, {0, 1, 3}, {31, 2, 0}, {5, 2, 7}, {31, 2, 10}, {17, 3, 65536}, {31, 4, 256}, {0, 5, 65536}
    };

    for (size_t i = 0; i < sizeof harms / sizeof harms[0]; i++) {
        judge_queue_harm(file, QUEUE_MOST_OPENS, &harms[i]);
    }
}

/* A number just behind the Opens, in the next and in the last; and a rate alone, which is a whole Open where it is the
 * next one, and behind a hole where it is not. */
static void judge_short_queues(struct case_file *file)
{
    static const struct queue_harm harms[] = {
        {2, 0, 1}, {2, 5, 1}, {31, 5, 1}, {2, 2, 8}, {3, 2, 8}, {1, 2, PAST_8_BITS + 8}, {0, 2, 0}
    };

    for (size_t i = 0; i < sizeof harms / sizeof harms[0]; i++) {
        judge_queue_harm(file, 2, &harms[i]);
    }
}

/* One in the middle, and all but the last. */
static void judge_holes(struct case_file *file)
{
    static const struct {
        size_t from;
        size_t to;
    } holes[] = {{15, 16}, {0, 31}};

    for (size_t i = 0; i < sizeof holes / sizeof holes[0]; i++) {
        struct port_box box = connected_box(1);
        uint64_t *first = box.queue + holes[i].from * PHY_ARGUMENTS;

        box_add_opens(&box, QUEUE_MOST_OPENS);
        memset(first, 0, (holes[i].to - holes[i].from) * PHY_ARGUMENTS * sizeof *first);
        judge_port(file, &box);
    }
}

/* ---- An Open beside a free phy ---- */

static void judge_beside_free(struct case_file *file, size_t count, size_t number, struct bay bay)
{
    struct port_box box = connected_box(count);

    box.bays[number] = bay;
    box_add_opens(&box, 1);
    judge_port(file, &box);
}

/* Whether opens are accepted there does not matter, nor does a base; only L0 with P1 is free. */
static void judge_all_beside_free(struct case_file *file)
{
    struct bay accepting = bay_with_base(phy_fresh(), 5);

    accepting.phy.accept = 1;
    judge_beside_free(file, 1, 0, bay_fresh());
    judge_beside_free(file, 2, 1, accepting);
    judge_beside_free(file, 8, 0, accepting);
    judge_beside_free(file, 8, 7, bay_fresh());
    judge_beside_free(file, 1, 0, sample_bay(LINK_SELECTED, PORT_IDLE));
    judge_beside_free(file, 2, 1, sample_bay(LINK_BREAK, PORT_IDLE));
}

void make_refused_port_cases(struct case_file *file)
{
    refuse_numbers(file, 1, 0);
    refuse_numbers(file, 2, QUEUE_MOST_OPENS - 1);
    refuse_numbers(file, 7, 0);
    refuse_numbers(file, 8, QUEUE_MOST_OPENS);
    refuse_to_port(file, 0);
    refuse_to_port(file, QUEUE_MOST_OPENS);
    refuse_by_phy(file);
    judge_row_lengths(file);
    judge_every_place(file);
    judge_queue_lengths(file);
    judge_full_queues(file);
    judge_short_queues(file);
    judge_holes(file);
    judge_all_beside_free(file);
}
