#include "cases.h"

#include "phy_walk.h"

enum {
    MOST_ROUNDS = 8,
    LONG_ROUNDS = 26,
    ROUND_TICKS = 999,
    SHORT_ITEMS = 30,
    SEEDED_WALKS = 30,
    SEEDED_WALKS_OF_PAIR = 5
};

/* Around the ends of both slopes, and of a millisecond. */
static const uint64_t end_waits[] = {0, 1, 32766, 32767, 32768, 32769, 65533, 65534, 65535};
enum { END_WAITS = sizeof end_waits / sizeof end_waits[0] };

static const uint64_t end_parts[] = {0, 1, 500, 998, 999};
enum { END_PARTS = sizeof end_parts / sizeof end_parts[0] };

static const uint64_t waiting_links[] = {LINK_ARB_SEL, LINK_SELECTED, LINK_BREAK};
enum { WAITING_LINKS = sizeof waiting_links / sizeof waiting_links[0] };

static struct phy waiting_record(uint64_t link, uint64_t wait, uint64_t part)
{
    struct phy phy = sample_record(link, PORT_REQ_WAIT, 0);

    phy.request.wait = wait;
    phy.part = part;
    return phy;
}

/* ---- A tick at the ends, in every pair ---- */

/* The timer's last tick shows that the wait rises before the link decides. */
static void tick_valid(struct case_file *file, struct phy phy)
{
    const struct phy_event tick = plain_event(EVENT_TICK);

    if (phy.timer != 0) {
        phy.timer = 1;
        phy_single_step(file, phy, tick);
    }
    if (phy.link == LINK_SELECTED) {
        phy.accept = 1;
        phy_single_step(file, phy, tick);
        phy.source = OTHER_ADDRESS;
        phy_single_step(file, phy, tick);
    }
}

static void tick_at_ends(struct case_file *file, struct phy phy)
{
    for (size_t i = 0; i < END_WAITS; i++) {
        for (size_t k = 0; k < END_PARTS; k++) {
            phy.request.wait = end_waits[i];
            phy.part = end_parts[k];
            phy_single_step(file, phy, plain_event(EVENT_TICK));
            if (phy_is_valid(&phy)) {
                tick_valid(file, phy);
            }
        }
    }
}

/* ---- Every event at the ends, where a request waits ---- */

/* Ticks behind an event show what became of the part. */
static const struct phy_item turns[][SCRIPT_ITEMS] = {
    {PLAIN(1, EVENT_TICK), PLAIN(1, EVENT_TICK)},
    {PLAIN(1, EVENT_AIP), PLAIN(1, EVENT_TICK)},
    {PLAIN(1, EVENT_CLOSE), PLAIN(1, EVENT_TICK)},
    {PLAIN(1, EVENT_ACCEPT_OPENS), PLAIN(1, EVENT_TICK)},
    {PLAIN(1, EVENT_REJECT_OPENS), PLAIN(1, EVENT_TICK)},
    /* Refused. */
    {TX_OPEN(7, 1, SECOND_SLOPE_WAIT), PLAIN(1, EVENT_CLOSE_CONNECTION), PLAIN(1, EVENT_SMP_TRANSMIT_BREAK),
     PLAIN(1, EVENT_TICK)},
    {PLAIN(1, MOST_CODE), PLAIN(1, EVENT_TICK)},
    /* Selected, and broken off then. */
    {OPEN_FROM(OTHER_ADDRESS, 1), PLAIN(1, EVENT_TICK)},
    {OPEN_FROM(WANTED_ADDRESS, 1), PLAIN(1, EVENT_ACCEPT_OPENS), PLAIN(1, EVENT_TICK)},
    {OPEN_FROM(OTHER_ADDRESS, 2), PLAIN(1, EVENT_CANCEL_OPEN), PLAIN(1, EVENT_BREAK), PLAIN(1, EVENT_TICK)},
    /* Given up: in P4 the wait stands still. */
    {PLAIN(1, EVENT_CANCEL_OPEN), PLAIN(1, EVENT_TICK), PLAIN(1, EVENT_BREAK)},
    {PLAIN(1, EVENT_CANCEL_OPEN), PLAIN(1000, EVENT_TICK)},
    {PLAIN(1, EVENT_BREAK), PLAIN(1, EVENT_CANCEL_OPEN), PLAIN(1, EVENT_TICK)},
    {PLAIN(1000, EVENT_TICK), PLAIN(1000, EVENT_TICK)},
    /* Answered. */
    {PLAIN(1, EVENT_OPEN_ACCEPT), PLAIN(1, EVENT_TICK)},
    {REJECTED(0), PLAIN(1, EVENT_TICK)},
    {REJECTED(7), PLAIN(1, EVENT_TICK)},
    {PLAIN(1, EVENT_HARD_RESET), PLAIN(1, EVENT_TICK)},
    {PLAIN(1, EVENT_PHY_DISABLED), PLAIN(1, EVENT_TICK)}
};

static void take_turns(struct case_file *file, struct phy phy)
{
    for (size_t i = 0; i < sizeof turns / sizeof turns[0]; i++) {
        struct phy_walk walk;

        phy_walk_start(&walk, phy);
        phy_walk_add_script(&walk, turns[i]);
        phy_walk_write(file, &walk);
    }
}

static void turn_at_ends(struct case_file *file, uint64_t link)
{
    for (size_t i = 0; i < END_WAITS; i++) {
        for (size_t k = 0; k < END_PARTS; k++) {
            struct phy phy = waiting_record(link, end_waits[i], end_parts[k]);

            if (phy_is_valid(&phy)) {
                take_turns(file, phy);
            }
        }
    }
}

/* ---- Records with a wrong part ---- */

/* Those below 1,000 are valid where the wait counts milliseconds, and wrong elsewhere. */
static void judge_parts(struct case_file *file, struct phy phy)
{
    static const uint64_t parts[] = {
        1, PAST_8_BITS, 999, 1000, 1001, PAST_32_BITS, PAST_32_BITS + 999, UINT64_MAX
    };

    for (size_t i = 0; i < sizeof parts / sizeof parts[0]; i++) {
        phy.part = parts[i];
        phy_judge_record(file, phy);
    }
}

/* At the ends of both slopes and within them. */
static void judge_parts_at_waits(struct case_file *file, struct phy phy)
{
    static const uint64_t waits[] = {0, 500, 32767, 32768, SECOND_SLOPE_WAIT, 65534, 65535};

    for (size_t i = 0; i < sizeof waits / sizeof waits[0]; i++) {
        phy.request.wait = waits[i];
        if (phy_is_valid(&phy)) {
            judge_parts(file, phy);
        }
    }
}

static void try_every_pair(struct case_file *file)
{
    for (uint64_t link = LINK_IDLE; link <= LINK_BREAK; link++) {
        for (uint64_t port = PORT_IDLE; port <= PORT_WAIT_FOR_CLOSE; port++) {
            struct phy phy = sample_record(link, port, 0);

            if (phy_is_valid(&phy)) {
                tick_at_ends(file, phy);
                judge_parts_at_waits(file, phy);
            }
        }
    }
}

/* ---- Long rows of ticks ---- */

static const uint64_t open_waits[] = {32766, 32767, 32768, 32769, SECOND_SLOPE_WAIT, 65533, 65534, 65535};
enum { OPEN_WAITS = sizeof open_waits / sizeof open_waits[0] };

/* The wait is the last argument. */
static struct phy_event open_with(uint64_t wait)
{
    struct phy_event open = sample_event(EVENT_TX_OPEN);

    open.argument[PHY_ARGUMENTS - 1] = wait;
    return open;
}

/* The AIP keeps the request waiting, unless the timer ended before it. */
static void add_round(struct phy_walk *walk, uint64_t ticks)
{
    phy_walk_add(walk, ticks, plain_event(EVENT_TICK));
    phy_walk_add(walk, 1, plain_event(EVENT_AIP));
}

static void add_rounds(struct phy_walk *walk, const uint64_t rounds[MOST_ROUNDS])
{
    for (size_t i = 0; i < MOST_ROUNDS && rounds[i] != 0; i++) {
        add_round(walk, rounds[i]);
    }
}

/* In the last two the timer ends. */
static const uint64_t rows[][MOST_ROUNDS] = {
    {1, 1, 1, 998, 1, 1, 1},
    {1, 999, 1, 999, 1},
    {998, 1, 1, 998, 1, 1},
    {500, 500, 500, 500, 500},
    {999, 999, 999, 999, 999},
    {1000, 1000},
    {1001, 999}
};

static void play_rows(struct case_file *file, uint64_t wait)
{
    for (size_t i = 0; i < sizeof rows / sizeof rows[0]; i++) {
        struct phy_walk walk;

        phy_walk_start(&walk, phy_fresh());
        phy_walk_add(&walk, 1, open_with(wait));
        add_rounds(&walk, rows[i]);
        phy_walk_add(&walk, 1, plain_event(EVENT_OPEN_ACCEPT));
        phy_walk_write(file, &walk);
    }
}

/* Every way of being answered; all of them lead to P1 with L0. */
static const struct phy_item endings[][SCRIPT_ITEMS] = {
    {PLAIN(1, EVENT_OPEN_ACCEPT), PLAIN(1, EVENT_BREAK), PLAIN(1, EVENT_TICK)},
    {REJECTED(2)},
    {OPEN_FROM(WANTED_ADDRESS, 0), PLAIN(1, EVENT_TICK)},
    {PLAIN(1, EVENT_ACCEPT_OPENS), OPEN_FROM(WANTED_ADDRESS, 0), PLAIN(1, EVENT_TICK), PLAIN(1, EVENT_BREAK),
     PLAIN(1, EVENT_TICK)},
    {PLAIN(1, EVENT_ACCEPT_OPENS), OPEN_FROM(OTHER_ADDRESS, 0), PLAIN(1, EVENT_TICK), PLAIN(1, EVENT_CLOSE),
     PLAIN(1, EVENT_CLOSE_CONNECTION)},
    {OPEN_FROM(WANTED_ADDRESS, 0), PLAIN(1, EVENT_BREAK), PLAIN(1, EVENT_TICK)},
    {PLAIN(1, EVENT_BREAK), PLAIN(1, EVENT_TICK)},
    {PLAIN(1, EVENT_CANCEL_OPEN), PLAIN(999, EVENT_TICK), PLAIN(1, EVENT_TICK)},
    {PLAIN(1, EVENT_CANCEL_OPEN), REJECTED(0)},
    {PLAIN(999, EVENT_TICK), PLAIN(1, EVENT_TICK), PLAIN(1000, EVENT_TICK)},
    {PLAIN(1, EVENT_HARD_RESET)},
    {PLAIN(1, EVENT_PHY_DISABLED)}
};

/* Another Open behind the answer has no part of the first one's millisecond. */
static void play_ending(
    struct case_file *file, uint64_t wait, const uint64_t rounds[MOST_ROUNDS],
    const struct phy_item ending[SCRIPT_ITEMS])
{
    struct phy_walk walk;

    phy_walk_start(&walk, phy_fresh());
    phy_walk_add(&walk, 1, open_with(wait));
    add_rounds(&walk, rounds);
    phy_walk_add_script(&walk, ending);
    phy_walk_add(&walk, 1, open_with(wait));
    phy_walk_add(&walk, 1, plain_event(EVENT_TICK));
    phy_walk_write(file, &walk);
}

/* From 32,768 to 65,534 the first row leaves one tick of a millisecond, and the second none. */
static void play_endings(struct case_file *file, uint64_t wait)
{
    static const uint64_t before[][MOST_ROUNDS] = {{999}, {999, 1}, {500, 999, 999}};

    for (size_t i = 0; i < sizeof before / sizeof before[0]; i++) {
        for (size_t k = 0; k < sizeof endings / sizeof endings[0]; k++) {
            play_ending(file, wait, before[i], endings[k]);
        }
    }
}

/* To the second slope, along it, and to its end. */
static void play_long_rows(struct case_file *file)
{
    static const uint64_t waits[] = {10000, SECOND_SLOPE_WAIT, 65510};

    for (size_t i = 0; i < sizeof waits / sizeof waits[0]; i++) {
        struct phy_walk walk;

        phy_walk_start(&walk, phy_fresh());
        phy_walk_add(&walk, 1, open_with(waits[i]));
        for (int round = 0; round < LONG_ROUNDS; round++) {
            add_round(&walk, ROUND_TICKS);
        }
        phy_walk_add(&walk, 1, plain_event(EVENT_OPEN_ACCEPT));
        phy_walk_write(file, &walk);
    }
}

/* ---- Seeded walks ---- */

/* Half of the time what keeps a request waiting, or few would wait for milliseconds. */
static void add_random_item(struct case_file *file, struct phy_walk *walk)
{
    static const uint64_t ticks[] = {1, 2, 499, 500, 998, 999};

    if (walk->now.link != LINK_ARB_SEL || case_random_one_in(file, 2)) {
        phy_walk_add_random(file, walk);
        return;
    }
    if (walk->now.timer < PHY_TIMER_START) {
        phy_walk_add(walk, 1, plain_event(EVENT_AIP));
        return;
    }
    phy_walk_add(walk, case_random_of(file, ticks, sizeof ticks / sizeof ticks[0]), plain_event(EVENT_TICK));
}

static void seeded_walk(struct case_file *file, struct phy start, size_t items)
{
    struct phy_walk walk;

    phy_walk_start(&walk, start);
    while (walk.count < items) {
        add_random_item(file, &walk);
    }
    phy_walk_write(file, &walk);
}

static void walk_while_waiting(struct case_file *file, uint64_t link)
{
    static const uint64_t waits[] = {32768, 32769, 33000, 65533, 65534};

    for (int i = 0; i < SEEDED_WALKS_OF_PAIR; i++) {
        uint64_t wait = case_random_of(file, waits, sizeof waits / sizeof waits[0]);
        uint64_t part = case_random_below(file, PHY_MILLISECOND);

        seeded_walk(file, waiting_record(link, wait, part), SHORT_ITEMS);
    }
}

void make_wait_cases(struct case_file *file)
{
    try_every_pair(file);
    for (size_t i = 0; i < WAITING_LINKS; i++) {
        turn_at_ends(file, waiting_links[i]);
    }
    for (size_t i = 0; i < OPEN_WAITS; i++) {
        play_rows(file, open_waits[i]);
        play_endings(file, open_waits[i]);
    }
    play_long_rows(file);
    for (size_t i = 0; i < WAITING_LINKS; i++) {
        walk_while_waiting(file, waiting_links[i]);
    }
    for (int i = 0; i < SEEDED_WALKS; i++) {
        seeded_walk(file, phy_fresh(), MOST_WALK_ITEMS);
    }
}
