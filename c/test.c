/*
 * Every function of the archives, every refusal and every edge of a buffer. A call that lends bytes is
 * given them out of the middle of a larger room, and the rest of the room is compared afterwards.
 */
#include "test.h"

#include <inttypes.h>
#include <stdio.h>

enum { UNTOUCHED = 0xA5 };

const char *tested;
uint8_t room[BEFORE + ROOM];

static unsigned long made;
static unsigned long failed;

void expect(int line, const char *what, uint64_t got, uint64_t wanted)
{
    made++;
    if (got != wanted) {
        failed++;
        printf("%s, line %d: %s is %" PRIu64 " and should be %" PRIu64 "\n", tested, line, what, got, wanted);
    }
}

void expect_report(int line, const char *what, struct louravela_report report, uint64_t code, uint64_t tick)
{
    expect(line, what, report.code, code);
    expect(line, "its tick", report.tick, tick);
}

struct louravela_event tx_open(uint64_t destination)
{
    struct louravela_event event = {LOURAVELA_TX_OPEN, destination, LOURAVELA_SSP, 9, 300, 2, 0};

    return event;
}

struct louravela_event open_received(uint64_t source, uint64_t protocol)
{
    struct louravela_event event = {LOURAVELA_OPEN_RECEIVED, source, protocol, 0, 0, 0, 0};

    return event;
}

uint8_t *lend(void)
{
    memset(room, UNTOUCHED, sizeof room);
    return room + BEFORE;
}

void expect_room(int line, size_t place, const uint8_t *bytes, size_t count)
{
    uint8_t wanted[sizeof room];

    memset(wanted, UNTOUCHED, sizeof wanted);
    if (count > 0) {
        memcpy(wanted + BEFORE + place, bytes, count);
    }
    expect(line, "the room as it should be", memcmp(room, wanted, sizeof room) == 0, 1);
}

int main(void)
{
    test_machines();
    test_bays();
    test_shelf();
    test_traces();
    printf("test: %lu expectations, %lu failed\n", made, failed);
    return failed == 0 ? 0 : 1;
}
