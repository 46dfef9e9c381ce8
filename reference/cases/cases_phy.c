#include "cases.h"

#include "phy_fields.h"
#include "phy_walk.h"

enum {
    SHORT_ITEMS = 30,
    SEEDED_WALKS = 80
};

static const uint64_t timers[] = {0, 1, 2, 999, 1000, 1001};
enum { TIMERS = sizeof timers / sizeof timers[0] };

/* ---- Every pair with every event ---- */

static struct phy_event open_reject(uint64_t reason)
{
    return (struct phy_event){.code = EVENT_OPEN_REJECT, .argument = {reason}};
}

static void step_every_event(struct case_file *file, struct phy phy)
{
    static const struct phy_event widest_inbound = {EVENT_OPEN_RECEIVED, {UINT64_MAX, 0, 0, 0, 0, 0}};

    for (uint64_t code = 0; code <= MOST_CODE; code++) {
        phy_single_step(file, phy, sample_event(code));
    }
    for (uint64_t reason = 1; reason <= 7; reason++) {
        phy_single_step(file, phy, open_reject(reason));
    }
    phy_single_step(file, phy, widest_tx_open);
    phy_single_step(file, phy, widest_inbound);
}

/* A refused step keeps the record, so one walk shows them all. */
static void refuse_every_event(struct case_file *file, struct phy phy)
{
    struct phy_walk walk;

    phy_walk_start(&walk, phy);
    for (uint64_t code = 0; code <= MOST_CODE; code++) {
        phy_walk_add(&walk, 1, sample_event(code));
    }
    phy_walk_write(file, &walk);
}

static void sweep_valid_timers(struct case_file *file, struct phy phy)
{
    for (size_t i = 0; i < TIMERS; i++) {
        for (uint64_t flags = 0; flags < 4; flags++) {
            phy.timer = timers[i];
            phy.accept = flags % 2;
            phy.far_closed = flags / 2;
            if (phy_is_valid(&phy)) {
                step_every_event(file, phy);
            }
        }
    }
}

static void sweep_valid(struct case_file *file)
{
    for (uint64_t link = LINK_IDLE; link <= LINK_BREAK; link++) {
        for (uint64_t port = PORT_IDLE; port <= PORT_WAIT_FOR_CLOSE; port++) {
            for (size_t variant = 0; variant < variant_count(link, port); variant++) {
                sweep_valid_timers(file, sample_record(link, port, variant));
            }
        }
    }
}

/* With either flag set one event is enough, another one for each record. */
static void sweep_invalid_flags(struct case_file *file, struct phy phy, uint64_t code)
{
    for (uint64_t flags = 1; flags < 4; flags++) {
        phy.accept = flags % 2;
        phy.far_closed = flags / 2;
        if (!phy_is_valid(&phy)) {
            phy_single_step(file, phy, sample_event((code + flags) % (MOST_CODE + 1)));
        }
    }
}

static void sweep_invalid_timers(struct case_file *file, uint64_t link, uint64_t port)
{
    struct phy phy = sample_record(link, port, 0);

    for (size_t i = 0; i < TIMERS; i++) {
        phy.timer = timers[i];
        if (!phy_is_valid(&phy)) {
            refuse_every_event(file, phy);
        }
        sweep_invalid_flags(file, phy, link + 3 * port + 6 * i);
    }
}

static void sweep_invalid(struct case_file *file)
{
    for (uint64_t link = LINK_IDLE; link <= LINK_BREAK + 1; link++) {
        for (uint64_t port = PORT_IDLE - 1; port <= PORT_WAIT_FOR_CLOSE + 1; port++) {
            sweep_invalid_timers(file, link, port);
        }
    }
}

/* Equal only if all 64 bits are. */
static void compare_addresses(struct case_file *file)
{
    static const uint64_t pairs[][2] = {
        {0, 0}, {UINT64_MAX, UINT64_MAX}, {UINT64_MAX, UINT64_MAX - 1}, {0, UINT64_C(1) << 63},
        {WANTED_ADDRESS, WANTED_ADDRESS + PAST_8_BITS}, {WANTED_ADDRESS, WANTED_ADDRESS + PAST_32_BITS},
        {WANTED_ADDRESS + PAST_32_BITS, WANTED_ADDRESS},
        {WANTED_ADDRESS + PAST_32_BITS, WANTED_ADDRESS + PAST_32_BITS}
    };

    for (size_t i = 0; i < sizeof pairs / sizeof pairs[0]; i++) {
        struct phy phy = sample_record(LINK_SELECTED, PORT_REQ_WAIT, 0);

        phy.request.destination = pairs[i][0];
        phy.source = pairs[i][1];
        phy_single_step(file, phy, plain_event(EVENT_TICK));
        phy.accept = 1;
        phy_single_step(file, phy, plain_event(EVENT_TICK));
    }
}

/* ---- Arguments ---- */

static const uint64_t unknown_codes[] = {
    0, 16, 17, 255, 256, 256 + EVENT_TICK, 256 + EVENT_HARD_RESET, PAST_32_BITS, PAST_32_BITS + EVENT_TICK,
    UINT64_MAX
};

static void try_arguments_had(struct case_file *file, struct phy phy)
{
    for (size_t i = 0; i < argument_ends_count; i++) {
        const struct argument_ends *ends = &argument_ends[i];

        for (size_t k = 0; k < ends->count; k++) {
            struct phy_event event = sample_event(ends->code);

            event.argument[ends->which] = ends->values[k];
            phy_single_step(file, phy, event);
        }
    }
}

static void try_arguments_lacked(struct case_file *file, struct phy phy)
{
    for (uint64_t code = EVENT_TX_OPEN; code <= EVENT_PHY_DISABLED; code++) {
        for (size_t which = phy_argument_count(code); which < PHY_ARGUMENTS; which++) {
            struct phy_event event = sample_event(code);

            event.argument[which] = which % 2 == 0 ? 1 : UINT64_MAX;
            phy_single_step(file, phy, event);
        }
    }
}

static void try_codes(struct case_file *file, struct phy phy)
{
    for (size_t i = 0; i < sizeof unknown_codes / sizeof unknown_codes[0]; i++) {
        phy_single_step(file, phy, plain_event(unknown_codes[i]));
        phy_single_step(file, phy, (struct phy_event){unknown_codes[i], {0, 0, 0, 0, 0, 1}});
    }
}

/* The last record is no valid pair, so its refusal comes before any of the event's. */
static void try_arguments(struct case_file *file)
{
    static const uint64_t pairs[][2] = {
        {LINK_IDLE, PORT_IDLE}, {LINK_ARB_SEL, PORT_REQ_WAIT}, {LINK_SELECTED, PORT_IDLE},
        {LINK_CONNECTED, PORT_CONNECTED}, {LINK_BREAK_WAIT, PORT_WAIT_FOR_CLOSE},
        {LINK_BREAK, PORT_IDLE}, {LINK_IDLE, PORT_CONNECTED}
    };

    for (size_t i = 0; i < sizeof pairs / sizeof pairs[0]; i++) {
        struct phy phy = sample_record(pairs[i][0], pairs[i][1], 0);

        try_arguments_had(file, phy);
        try_arguments_lacked(file, phy);
        try_codes(file, phy);
    }
}

/* ---- Records with one field changed ---- */

static void judge_field(struct case_file *file, const struct phy *phy, enum phy_field field, uint64_t value)
{
    uint64_t fields[PHY_FIELDS];

    phy_to_fields(phy, fields);
    fields[field] = value;
    phy_judge_record(file, phy_from_fields(fields));
}

static void judge_listed_values(struct case_file *file, const struct phy *phy)
{
    for (enum phy_field field = FIELD_LINK; field < PHY_FIELDS; field++) {
        for (size_t i = 0; i < phy_field_values[field].count; i++) {
            judge_field(file, phy, field, phy_field_values[field].values[i]);
        }
    }
}

/* The low bits alone would pass. */
static void judge_raised_values(struct case_file *file, const struct phy *phy)
{
    uint64_t fields[PHY_FIELDS];

    phy_to_fields(phy, fields);
    for (enum phy_field field = FIELD_LINK; field < PHY_FIELDS; field++) {
        judge_field(file, phy, field, fields[field] + PAST_8_BITS);
        judge_field(file, phy, field, fields[field] + PAST_32_BITS);
    }
}

/* Numbers that are no flags, one of them or both; no event is taken, not even one that would set the flag anew. */
static void refuse_flags(struct case_file *file, struct phy phy)
{
    static const uint64_t flags[][2] = {
        {2, 0}, {UINT64_MAX, 1}, {0, 2}, {1, UINT64_MAX}, {2, UINT64_MAX}, {UINT64_MAX, 2}
    };

    for (size_t i = 0; i < sizeof flags / sizeof flags[0]; i++) {
        phy.far_closed = flags[i][0];
        phy.accept = flags[i][1];
        refuse_every_event(file, phy);
    }
}

static void judge_records(struct case_file *file)
{
    for (uint64_t link = LINK_IDLE; link <= LINK_BREAK; link++) {
        for (uint64_t port = PORT_IDLE; port <= PORT_WAIT_FOR_CLOSE; port++) {
            struct phy phy = sample_record(link, port, 0);

            if (phy_is_valid(&phy)) {
                judge_listed_values(file, &phy);
                judge_raised_values(file, &phy);
                refuse_flags(file, phy);
            }
        }
    }
}

/* ---- Scripts from a fresh phy ---- */

static void play_script(struct case_file *file, const struct phy_item items[SCRIPT_ITEMS])
{
    struct phy_walk walk;

    phy_walk_start(&walk, phy_fresh());
    phy_walk_add_script(&walk, items);
    phy_walk_write(file, &walk);
}

/* ---- Seeded walks ---- */

static void seeded_walk(struct case_file *file, struct phy start, size_t items)
{
    struct phy_walk walk;

    phy_walk_start(&walk, start);
    while (walk.count < items) {
        phy_walk_add_random(file, &walk);
    }
    phy_walk_write(file, &walk);
}

/* Some of these records no fresh phy ever reaches. */
static void walk_from_every_pair(struct case_file *file)
{
    for (uint64_t link = LINK_IDLE; link <= LINK_BREAK; link++) {
        for (uint64_t port = PORT_IDLE; port <= PORT_WAIT_FOR_CLOSE; port++) {
            struct phy phy = sample_record(link, port, (link + port) % variant_count(link, port));

            if (phy_is_valid(&phy)) {
                seeded_walk(file, phy, SHORT_ITEMS);
            }
        }
    }
}

void make_phy_cases(struct case_file *file)
{
    sweep_valid(file);
    sweep_invalid(file);
    compare_addresses(file);
    try_arguments(file);
    judge_records(file);
    for (size_t i = 0; i < phy_script_count; i++) {
        play_script(file, phy_scripts[i]);
    }
    walk_from_every_pair(file);
    for (int i = 0; i < SEEDED_WALKS; i++) {
        seeded_walk(file, phy_fresh(), MOST_WALK_ITEMS);
    }
}
