#include "shelf.h"

#include "number.h"
#include "refusals.h"

/* ---- Reading ---- */

static struct shelf_read shelf_fault(uint64_t refusal, size_t place)
{
    return (struct shelf_read){.found = FOUND_FAULT, .refusal = refusal, .next = place};
}

/* To the reader of events the trace ends behind the number; here it ends within an event, and that is a fault. */
static uint64_t fault_of(const struct event_read *got)
{
    return got->found == FOUND_END ? (uint64_t)REFUSED_CUT : got->refusal;
}

struct shelf_read shelf_read(const uint8_t *bytes, size_t length, size_t place)
{
    if (place >= length) {
        return (struct shelf_read){.found = FOUND_END, .next = place};
    }

    struct number_read number = number_read(bytes, length, place);

    if (number.refusal != NOT_REFUSED) {
        return shelf_fault(number.refusal, place);
    }

    struct event_read got = event_read(bytes, length, number.next);

    if (got.found != FOUND_EVENT) {
        return shelf_fault(fault_of(&got), place);
    }
    return (struct shelf_read){
        .found = FOUND_EVENT,
        .refusal = NOT_REFUSED,
        .next = got.next,
        .event = {.number = number.value, .event = got.event}
    };
}

/* ---- Writing ---- */

static struct event_written shelf_refused(uint64_t refusal)
{
    return (struct event_written){.refusal = refusal, .length = 0};
}

struct event_written shelf_write(const struct shelf_event *event, uint8_t *buffer, size_t length, size_t place)
{
    if (!bay_event_is_valid(&event->event)) {
        return shelf_refused(REFUSED_BAD_EVENT);
    }

    size_t needed = number_length(event->number) + event_length(&event->event);

    /* As with an event: the room is asked for whole, or the number could be written alone. */
    if (place > length || length - place < needed) {
        return shelf_refused(REFUSED_NO_ROOM);
    }
    place += number_write(event->number, buffer, length, place).length;
    event_write(&event->event, buffer, length, place);
    return (struct event_written){.refusal = NOT_REFUSED, .length = needed};
}
