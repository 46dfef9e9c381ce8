#include "shelf_listing.h"

#include "listing.h"
#include "shelf.h"

#include <assert.h>
#include <inttypes.h>

/* The port itself, and a number that is no phy, have no bay: link and port are listed as 0. */
static struct bay bay_of(const struct port *port, uint64_t number)
{
    return number < port->count ? port->bays[number] : (struct bay){0};
}

/* As if the bay had taken the event alone; but it may have got an Open since. */
static struct bay_result own_result(const struct port_result *step, struct bay bay)
{
    return (struct bay_result){
        .refusal = step->refusal,
        .answer = step->answer,
        .notice = step->notice,
        .second_notice = step->second_notice,
        .sent = step->sent,
        .bay = bay
    };
}

static void take_and_list(FILE *out, const struct port *port, size_t place, const struct shelf_event *event)
{
    struct port_result step = port_step(*port, *event);
    struct bay_result own = own_result(&step, bay_of(port, event->number));

    fprintf(out, "%zu %" PRIu64 " ", place, event->number);
    list_columns(out, event->event.code, &own);
    fprintf(out, " %" PRIu64 " %zu\n", step.handed, port_waiting(port));
}

static void list_events(FILE *out, const struct port *port, const uint8_t *trace, size_t length)
{
    size_t count = 0;
    size_t place = 0;
    struct shelf_read got = shelf_read(trace, length, place);

    while (got.found == FOUND_EVENT) {
        take_and_list(out, port, place, &got.event);
        count++;
        place = got.next;
        got = shelf_read(trace, length, place);
    }
    list_last_line(out, got.refusal, place, count);
}

void list_shelf_trace(FILE *out, size_t phys, const uint8_t *trace, size_t length)
{
    struct bay bays[SHELF_LISTING_MOST_PHYS];
    uint64_t queue[QUEUE_NUMBERS] = {0};
    const struct port port = {.bays = bays, .count = phys, .queue = queue, .length = QUEUE_NUMBERS};

    assert(phys <= SHELF_LISTING_MOST_PHYS);
    if (list_too_long(out, length)) {
        return;
    }
    for (size_t i = 0; i < phys; i++) {
        bays[i] = bay_fresh();
    }
    fputs("place phy " LISTING_COLUMNS " handed waiting\n", out);
    list_events(out, &port, trace, length);
}
