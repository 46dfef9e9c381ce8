#include "listing.h"

#include "refusals.h"
#include "trace.h"

#include <inttypes.h>

/* ---- What a listing of a shelf trace has too ---- */

static uint64_t last_notice(const struct bay_result *step)
{
    return step->second_notice.code != NO_NOTICE ? step->second_notice.code : step->notice.code;
}

void list_columns(FILE *out, uint64_t code, const struct bay_result *step)
{
    fprintf(out, "%" PRIu64 " %" PRIu64, code, step->refusal);
    fprintf(out, " %" PRIu64 " %" PRIu64 " %" PRIu64, step->answer.code, last_notice(step), step->sent.code);
    fprintf(out, " %" PRIu64 " %" PRIu64, step->bay.phy.link, step->bay.phy.port);
}

bool list_too_long(FILE *out, size_t length)
{
    if (length <= LISTING_MOST_BYTES) {
        return false;
    }
    fputs("too long\n", out);
    return true;
}

void list_last_line(FILE *out, uint64_t refusal, size_t place, size_t events)
{
    if (refusal != NOT_REFUSED) {
        fprintf(out, "stop %zu refusal %" PRIu64 "\n", place, refusal);
        return;
    }
    fprintf(out, "end %zu events %zu\n", place, events);
}

/* ---- The listing of one phy's trace ---- */

static void list_event(FILE *out, size_t place, uint64_t code, const struct bay_result *step)
{
    fprintf(out, "%zu ", place);
    list_columns(out, code, step);
    fputc('\n', out);
}

static void list_events(FILE *out, const uint8_t *trace, size_t length)
{
    struct bay bay = bay_fresh();
    size_t count = 0;
    size_t place = 0;
    struct event_read got = event_read(trace, length, place);

    while (got.found == FOUND_EVENT) {
        struct bay_result step = bay_step(bay, got.event);

        list_event(out, place, got.event.code, &step);
        bay = step.bay;
        count++;
        place = got.next;
        got = event_read(trace, length, place);
    }
    list_last_line(out, got.refusal, place, count);
}

void list_trace(FILE *out, const uint8_t *trace, size_t length)
{
    if (list_too_long(out, length)) {
        return;
    }
    fputs("place " LISTING_COLUMNS "\n", out);
    list_events(out, trace, length);
}
