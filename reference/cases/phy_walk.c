#include "phy_walk.h"

#include "phy_fields.h"

#include <assert.h>

void phy_walk_start(struct phy_walk *walk, struct phy start)
{
    walk->start = start;
    walk->now = start;
    walk->count = 0;
}

void phy_walk_add(struct phy_walk *walk, uint64_t repeat, struct phy_event event)
{
    assert(walk->count < MOST_WALK_ITEMS);
    walk->items[walk->count] = (struct phy_item){.repeat = repeat, .event = event};
    walk->count++;
    for (uint64_t i = 0; i < repeat; i++) {
        walk->now = phy_step(walk->now, event).phy;
    }
}

void phy_walk_add_script(struct phy_walk *walk, const struct phy_item items[SCRIPT_ITEMS])
{
    for (size_t i = 0; i < SCRIPT_ITEMS && items[i].repeat != 0; i++) {
        phy_walk_add(walk, items[i].repeat, items[i].event);
    }
}

/* ---- Seeded items ---- */

static struct phy_event random_event(struct case_file *file, const struct phy *now)
{
    uint64_t code = random_likely_code(file, now->link);

    if (case_random_one_in(file, 10)) {
        code = case_random_below(file, MOST_CODE + 1);
    }

    struct phy_event event = random_event_of(file, code);

    if (case_random_one_in(file, 40)) {
        uint64_t which = case_random_below(file, PHY_ARGUMENTS);

        event.argument[which] = case_random(file);
    }
    return event;
}

/* A refused step prints a line each time, so only true ticks are repeated at length. */
static uint64_t random_repeat(struct case_file *file, const struct phy_event *event)
{
    static const uint64_t ticks[] = {1, 1, 1, 2, 500, 998, 999, 1000, 1001, 1999, 2000};

    if (event->code == EVENT_TICK && phy_event_is_valid(event)) {
        return case_random_of(file, ticks, sizeof ticks / sizeof ticks[0]);
    }
    return case_random_one_in(file, 20) ? 2 : 1;
}

void phy_walk_add_random(struct case_file *file, struct phy_walk *walk)
{
    struct phy_event event = random_event(file, &walk->now);

    phy_walk_add(walk, random_repeat(file, &event), event);
}

/* ---- Cases ---- */

static void expect_result(struct case_file *file, const struct phy_result *result)
{
    uint64_t line[4 + PHY_ARGUMENTS + PHY_FIELDS] = {
        result->refusal, result->answer, result->notice, result->sent
    };

    request_to_arguments(&result->answered, line + 4);
    phy_to_fields(&result->phy, line + 4 + PHY_ARGUMENTS);
    expect_line(file, KIND_PHY_WALK, line, sizeof line / sizeof line[0]);
}

static bool reports_anything(const struct phy_result *result)
{
    return result->refusal != 0 || result->answer != 0 || result->notice != 0 || result->sent != 0;
}

static struct phy expect_item(struct case_file *file, struct phy phy, const struct phy_item *item)
{
    for (uint64_t i = 1; i <= item->repeat; i++) {
        struct phy_result result = phy_step(phy, item->event);

        if (i == item->repeat || reports_anything(&result)) {
            expect_result(file, &result);
        }
        phy = result.phy;
    }
    return phy;
}

void phy_walk_write(struct case_file *file, const struct phy_walk *walk)
{
    uint64_t fields[PHY_FIELDS];
    struct phy phy = walk->start;

    phy_to_fields(&phy, fields);
    case_number(file, KIND_PHY_WALK);
    case_numbers(file, fields, PHY_FIELDS);
    case_number(file, walk->count);
    for (size_t i = 0; i < walk->count; i++) {
        const struct phy_item *item = &walk->items[i];

        case_number(file, item->repeat);
        case_number(file, item->event.code);
        case_numbers(file, item->event.argument, PHY_ARGUMENTS);
        phy = expect_item(file, phy, item);
    }
}

void phy_single_step(struct case_file *file, struct phy phy, struct phy_event event)
{
    struct phy_walk walk;

    phy_walk_start(&walk, phy);
    phy_walk_add(&walk, 1, event);
    phy_walk_write(file, &walk);
}

/* Phy Disabled is taken in every valid state; the unknown code before it comes second to the state. */
void phy_judge_record(struct case_file *file, struct phy phy)
{
    struct phy_walk walk;

    phy_walk_start(&walk, phy);
    phy_walk_add(&walk, 1, plain_event(0));
    phy_walk_add(&walk, 1, plain_event(EVENT_PHY_DISABLED));
    phy_walk_write(file, &walk);
}
