#include "trace.h"

#include "bay.h"
#include "number.h"
#include "refusals.h"

/* ---- Reading ---- */

static struct event_read event_fault(uint64_t refusal, size_t place)
{
    return (struct event_read){.found = FOUND_FAULT, .refusal = refusal, .next = place};
}

static uint64_t read_code(struct event_read *got, const uint8_t *bytes, size_t length)
{
    struct number_read number = number_read(bytes, length, got->next);

    if (number.refusal != NOT_REFUSED) {
        return number.refusal;
    }
    if (!bay_code_is_known(number.value)) {
        return REFUSED_BAD_EVENT;
    }
    got->event.code = number.value;
    got->next = number.next;
    return NOT_REFUSED;
}

static uint64_t read_argument(struct event_read *got, size_t which, const uint8_t *bytes, size_t length)
{
    struct number_read number = number_read(bytes, length, got->next);

    if (number.refusal != NOT_REFUSED) {
        return number.refusal;
    }
    if (!bay_argument_fits(got->event.code, which, number.value)) {
        return REFUSED_BAD_EVENT;
    }
    got->event.argument[which] = number.value;
    got->next = number.next;
    return NOT_REFUSED;
}

struct event_read event_read(const uint8_t *bytes, size_t length, size_t place)
{
    struct event_read got = {.found = FOUND_EVENT, .refusal = NOT_REFUSED, .next = place};

    if (place >= length) {
        got.found = FOUND_END;
        return got;
    }

    uint64_t refusal = read_code(&got, bytes, length);

    if (refusal != NOT_REFUSED) {
        return event_fault(refusal, place);
    }

    size_t arguments = bay_argument_count(got.event.code);

    for (size_t i = 0; i < arguments; i++) {
        refusal = read_argument(&got, i, bytes, length);
        if (refusal != NOT_REFUSED) {
            return event_fault(refusal, place);
        }
    }
    return got;
}

/* ---- Writing ---- */

size_t event_length(const struct phy_event *event)
{
    size_t length = number_length(event->code);

    for (size_t i = 0; i < bay_argument_count(event->code); i++) {
        length += number_length(event->argument[i]);
    }
    return length;
}

static struct event_written event_refused(uint64_t refusal)
{
    return (struct event_written){.refusal = refusal, .length = 0};
}

struct event_written event_write(const struct phy_event *event, uint8_t *buffer, size_t length, size_t place)
{
    if (!bay_event_is_valid(event)) {
        return event_refused(REFUSED_BAD_EVENT);
    }

    size_t needed = event_length(event);

    /* The room is asked for whole, before the first number: a number that fits must not be written alone. */
    if (place > length || length - place < needed) {
        return event_refused(REFUSED_NO_ROOM);
    }
    place += number_write(event->code, buffer, length, place).length;
    for (size_t i = 0; i < bay_argument_count(event->code); i++) {
        place += number_write(event->argument[i], buffer, length, place).length;
    }
    return (struct event_written){.refusal = NOT_REFUSED, .length = needed};
}
