#include "port_box.h"

#include "bay_fields.h"
#include "bay_samples.h"
#include "phy_samples.h"
#include "refusals.h"
#include "stamp_samples.h"

#include <assert.h>
#include <string.h>

struct port box_port(struct port_box *box)
{
    return (struct port){.bays = box->bays, .count = box->count, .queue = box->queue, .length = box->length};
}

struct port_box box_of(size_t count, struct bay bay)
{
    struct port_box box = {.count = count, .length = QUEUE_NUMBERS};

    assert(count <= BOX_BAYS);
    for (size_t i = 0; i < count; i++) {
        box.bays[i] = bay;
    }
    return box;
}

struct port_box fresh_box(size_t count)
{
    return box_of(count, bay_fresh());
}

struct port_box connected_box(size_t count)
{
    return box_of(count, sample_bay(LINK_CONNECTED, PORT_CONNECTED));
}

static size_t box_waiting(const struct port_box *box)
{
    struct port_box copy = *box;
    struct port port = box_port(&copy);

    return port_waiting(&port);
}

void box_add_open(struct port_box *box, struct phy_event open)
{
    size_t waiting = box_waiting(box);

    assert(waiting < QUEUE_MOST_OPENS);
    memcpy(box->queue + waiting * PHY_ARGUMENTS, open.argument, sizeof open.argument);
}

void box_add_opens(struct port_box *box, size_t count)
{
    for (size_t i = 0; i < count; i++) {
        box_add_open(box, numbered_open(box_waiting(box)));
    }
}

struct phy_event numbered_open(uint64_t number)
{
    return (struct phy_event){
        EVENT_TX_OPEN, {number, number % 3, RATE_1_5_GBPS + number % 2, number, 2 * number, 3 * number}
    };
}

struct bay sample_bay(uint64_t link, uint64_t port)
{
    return bay_without_base(pair_record((struct phy_pair){link, port}));
}

bool event_frees(const struct bay *bay, const struct phy_event *event)
{
    struct bay_result step = bay_step(*bay, *event);

    return step.refusal == NOT_REFUSED && port_bay_is_free(&step.bay);
}

struct shelf_event to_phy(uint64_t number, struct phy_event event)
{
    return (struct shelf_event){.number = number, .event = event};
}

struct shelf_event to_port(struct phy_event event)
{
    return to_phy(THE_PORT_ITSELF, event);
}

static struct shelf_event random_misdirected(struct case_file *file, const struct port_box *now)
{
    const uint64_t numbers[] = {now->count, PORT_MOST_BAYS, 126, THE_PORT_ITSELF, 128, 200, UINT64_MAX};
    uint64_t number = case_random_of(file, numbers, sizeof numbers / sizeof numbers[0]);

    return to_phy(number, random_bay_event(file, &now->bays[0]));
}

struct shelf_event random_shelf_event(struct case_file *file, const struct port_box *now, uint64_t opens_in_twelve)
{
    if (case_random_below(file, 12) < opens_in_twelve) {
        return to_port(random_event_of(file, EVENT_TX_OPEN));
    }
    if (case_random_one_in(file, 16)) {
        return random_misdirected(file, now);
    }

    uint64_t number = case_random_below(file, now->count);

    return to_phy(number, random_bay_event(file, &now->bays[number]));
}

void case_box(struct case_file *file, const struct port_box *box)
{
    case_number(file, box->count);
    for (size_t i = 0; i < box->count; i++) {
        uint64_t fields[BAY_FIELDS];

        bay_to_fields(&box->bays[i], fields);
        case_numbers(file, fields, BAY_FIELDS);
    }
    case_number(file, box->length);
    case_numbers(file, box->queue, box->length);
}

void expect_box(struct case_file *file, enum case_kind kind, const struct port_box *box)
{
    for (size_t i = 0; i < box->count; i++) {
        uint64_t fields[BAY_FIELDS];

        bay_to_fields(&box->bays[i], fields);
        expect_line(file, kind, fields, BAY_FIELDS);
    }
    expect_line(file, kind, box->queue, box->length);
}
