#include "port_walk.h"

#include "phy_fields.h"
#include "refusals.h"

#include <assert.h>
#include <string.h>

enum {
    REPORTS = 9,
    HAND_OUT = 2
};

void port_walk_start(struct port_walk *walk, const struct port_box *start)
{
    walk->start = *start;
    walk->now = *start;
    walk->count = 0;
}

/* A valid port stays valid, any other is refused, and a refused event changes nothing: rules of the paper that the
 * step must not break, whatever becomes of the event. */
static struct port_result checked_step(struct port_box *box, struct shelf_event event)
{
    const struct port_box before = *box;
    struct port port = box_port(box);
    bool was_valid = port_is_valid(&port);
    struct port_result result = port_step(port, event);

    assert(was_valid == (result.refusal != REFUSED_BAD_STATE));
    assert(port_is_valid(&port) == was_valid);
    assert(result.refusal == NOT_REFUSED || memcmp(&before, box, sizeof before) == 0);
    return result;
}

struct port_result port_walk_add(struct port_walk *walk, struct shelf_event event)
{
    assert(walk->count < MOST_PORT_EVENTS);
    walk->events[walk->count] = event;
    walk->count++;
    return checked_step(&walk->now, event);
}

static void expect_result(struct case_file *file, const struct port_result *result)
{
    uint64_t line[REPORTS + PHY_ARGUMENTS + HAND_OUT] = {
        result->refusal,
        result->answer.code, result->answer.tick,
        result->notice.code, result->notice.tick,
        result->second_notice.code, result->second_notice.tick,
        result->sent.code, result->sent.tick
    };

    request_to_arguments(&result->answered, line + REPORTS);
    line[REPORTS + PHY_ARGUMENTS] = result->handed;
    line[REPORTS + PHY_ARGUMENTS + 1] = result->handed_sent;
    expect_line(file, KIND_PORT_WALK, line, sizeof line / sizeof line[0]);
}

void port_walk_write(struct case_file *file, const struct port_walk *walk)
{
    struct port_box box = walk->start;

    case_number(file, KIND_PORT_WALK);
    case_box(file, &box);
    case_number(file, walk->count);
    for (size_t i = 0; i < walk->count; i++) {
        struct port_result result = checked_step(&box, walk->events[i]);

        case_number(file, walk->events[i].number);
        case_number(file, walk->events[i].event.code);
        case_numbers(file, walk->events[i].event.argument, PHY_ARGUMENTS);
        expect_result(file, &result);
    }
    expect_box(file, KIND_PORT_WALK, &box);
}
