#include "bay_walk.h"

#include "bay_fields.h"

#include <assert.h>

enum { REPORTS = 9 };

void bay_walk_start(struct bay_walk *walk, struct bay start)
{
    walk->start = start;
    walk->now = start;
    walk->count = 0;
}

void bay_walk_add(struct bay_walk *walk, struct phy_event event)
{
    assert(walk->count < MOST_BAY_EVENTS);
    walk->events[walk->count] = event;
    walk->count++;
    walk->now = bay_step(walk->now, event).bay;
}

static void expect_result(struct case_file *file, const struct bay_result *result)
{
    uint64_t line[REPORTS + PHY_ARGUMENTS + BAY_FIELDS] = {
        result->refusal,
        result->answer.code, result->answer.tick,
        result->notice.code, result->notice.tick,
        result->second_notice.code, result->second_notice.tick,
        result->sent.code, result->sent.tick
    };

    request_to_arguments(&result->answered, line + REPORTS);
    bay_to_fields(&result->bay, line + REPORTS + PHY_ARGUMENTS);
    expect_line(file, KIND_BAY_WALK, line, sizeof line / sizeof line[0]);
}

void bay_walk_write(struct case_file *file, const struct bay_walk *walk)
{
    uint64_t fields[BAY_FIELDS];
    struct bay bay = walk->start;

    bay_to_fields(&bay, fields);
    case_number(file, KIND_BAY_WALK);
    case_numbers(file, fields, BAY_FIELDS);
    case_number(file, walk->count);
    for (size_t i = 0; i < walk->count; i++) {
        struct bay_result result = bay_step(bay, walk->events[i]);

        case_number(file, walk->events[i].code);
        case_numbers(file, walk->events[i].argument, PHY_ARGUMENTS);
        expect_result(file, &result);
        bay = result.bay;
    }
}
