/*
 * The archives against the reference, on seeded random walks: phys, bays, shelves, traces, numbers and the two other
 * machines, valid, damaged and invalid.
 *
 *   differ ROUNDS [FIRST]   rounds with the seeds FIRST, FIRST + 1, ..; a difference is printed with its seed,
 *                           and `differ 1 SEED` makes that round again
 */
#include "differ.h"

#include <inttypes.h>
#include <stdio.h>
#include <stdlib.h>
#include <string.h>

#include "inputs.h"

enum {
    PHY_FIELDS = sizeof(struct louravela_phy) / sizeof(uint64_t),
    EVENT_FIELDS = sizeof(struct louravela_event) / sizeof(uint64_t),
    TRACES = 6,
    SHELF_ROUNDS = 1000, /* shelves take longer than all else in a round, and these are a million events */
    MOST_SHOWN = 20
};

static uint64_t seed;
static unsigned long differences;

unsigned long long compared_steps;
unsigned long long compared_records;
unsigned long long compared_runs;
unsigned long long compared_events;
unsigned long long compared_numbers;

/* ---- Random numbers, most of them near the edges of something ---- */

bool one_in(uint64_t chances)
{
    return random_below(chances) == 0;
}

uint64_t random_any(void)
{
    static const uint64_t edges[] = {0, 1, 2, 3, 7, 8, 9, 69, 70, 71, 127, 128, 255, 256, 998, 999, 1000, 1001, 32767,
                                     32768, 65534, 65535, 65536, UINT32_MAX, UINT64_C(1) << 32, UINT64_C(1) << 63,
                                     UINT64_MAX};

    if (one_in(2)) {
        return edges[random_below(sizeof edges / sizeof edges[0])];
    }
    return random_number() >> random_below(64);
}

void spoil_flag(uint64_t *const *flags, uint64_t count)
{
    uint64_t *flag = flags[random_below(count)];

    *flag = one_in(2) ? 2 : UINT64_MAX;
}

/* ---- Differences ---- */

void differ(const char *what)
{
    differences++;
    if (differences <= MOST_SHOWN) {
        printf("seed %" PRIu64 ": %s differs\n", seed, what);
    }
}

void same(const char *what, uint64_t ours, uint64_t theirs)
{
    if (ours != theirs) {
        differ(what);
    }
}

void same_bytes(const char *what, const uint8_t *ours, const uint8_t *theirs, size_t length)
{
    if (memcmp(ours, theirs, length) != 0) {
        differ(what);
    }
}

/* ---- Phys and events ---- */

struct phy their_phy(const struct louravela_phy *phy)
{
    struct phy result = {
        .link = phy->link,
        .port = phy->port,
        .timer = phy->timer,
        .request = {phy->request.destination, phy->request.protocol, phy->request.rate, phy->request.tag,
                    phy->request.blocked_count, phy->request.wait},
        .part = phy->part,
        .reason = phy->reason,
        .source = phy->inbound_source,
        .inbound_protocol = phy->inbound_protocol,
        .connection_protocol = phy->connection_protocol,
        .far_closed = phy->far_closed,
        .accept = phy->accept
    };

    return result;
}

void same_open(const struct louravela_open *ours, const struct phy_request *theirs)
{
    same("an Open's destination", ours->destination, theirs->destination);
    same("an Open's protocol", ours->protocol, theirs->protocol);
    same("an Open's rate", ours->rate, theirs->rate);
    same("an Open's tag", ours->tag, theirs->tag);
    same("an Open's blocked count", ours->blocked_count, theirs->blocked);
    same("an Open's wait", ours->wait, theirs->wait);
}

void same_phy(const struct louravela_phy *ours, const struct phy *theirs)
{
    same("the link", ours->link, theirs->link);
    same("the port", ours->port, theirs->port);
    same("the timer", ours->timer, theirs->timer);
    same_open(&ours->request, &theirs->request);
    same("the part of a millisecond", ours->part, theirs->part);
    same("the reason", ours->reason, theirs->reason);
    same("the source", ours->inbound_source, theirs->source);
    same("the inbound protocol", ours->inbound_protocol, theirs->inbound_protocol);
    same("the connection's protocol", ours->connection_protocol, theirs->connection_protocol);
    same("far-closed", ours->far_closed, theirs->far_closed);
    same("the accept flag", ours->accept, theirs->accept);
}

void same_bay(const struct louravela_bay *ours, const struct bay *theirs)
{
    same_phy(&ours->phy, &theirs->phy);
    same("the base", ours->base, theirs->base);
    same("whether the base is set", ours->base_set, theirs->base_set);
}

/* Where the wait's slope changes, near its most, or anywhere. */
static uint64_t random_wait(void)
{
    if (one_in(3)) {
        return 32760 + random_below(12);
    }
    return one_in(3) ? 65530 + random_below(6) : random_any() % 65536;
}

struct louravela_event known_event_of(uint64_t code)
{
    struct louravela_event event = event_of(code);

    if (event.code == LOURAVELA_TX_OPEN || event.code == LOURAVELA_OPEN_RECEIVED) {
        event.first = one_in(2) ? random_below(3) : random_any();
        event.second = random_below(3);
    }
    if (event.code == LOURAVELA_TX_OPEN) {
        event.third = 8 + random_below(2);
        event.fourth = random_any() % 65536;
        event.fifth = random_any() % 256;
        event.sixth = random_wait();
    }
    if (event.code == LOURAVELA_OPEN_REJECT_RECEIVED) {
        event.first = random_below(8);
    }
    if (event.code == LOURAVELA_TIME_STAMP) {
        event.first = random_any() % (UINT64_C(1) << 32);
    }
    return event;
}

struct louravela_event known_event(void)
{
    return known_event_of(1 + random_below(16));
}

struct louravela_event random_event(void)
{
    struct louravela_event event = known_event();
    uint64_t numbers[EVENT_FIELDS];

    if (one_in(8)) {
        memcpy(numbers, &event, sizeof event);
        numbers[random_below(EVENT_FIELDS)] = random_any();
        memcpy(&event, numbers, sizeof event);
    }
    return event;
}

struct louravela_phy damaged_phy(struct louravela_phy phy)
{
    uint64_t *const flags[] = {&phy.far_closed, &phy.accept};
    uint64_t numbers[PHY_FIELDS];

    if (one_in(4)) {
        spoil_flag(flags, sizeof flags / sizeof flags[0]);
        return phy;
    }
    memcpy(numbers, &phy, sizeof phy);
    for (uint64_t times = 1 + random_below(3); times > 0; times--) {
        numbers[random_below(PHY_FIELDS)] = one_in(2) ? random_below(8) : random_any();
    }
    memcpy(&phy, numbers, sizeof phy);
    return phy;
}

int main(int argc, char **argv)
{
    uint64_t rounds = argc > 1 ? strtoull(argv[1], NULL, 10) : 100;
    uint64_t first = argc > 2 ? strtoull(argv[2], NULL, 10) : 1;
    struct louravela_phy phy;

    for (seed = first; seed < first + rounds; seed++) {
        random_state = seed * UINT64_C(0xD1342543DE82EF95);
        phy = walk_phy();
        for (int i = 0; i < TRACES; i++) {
            walk_trace(phy);
        }
        walk_numbers();
        walk_dws();
        walk_identify();
        walk_bay();
        if (seed - first < SHELF_ROUNDS) {
            walk_shelf();
        }
    }
    print_shelves();
    printf("differ: seeds %" PRIu64 " to %" PRIu64 ": %llu steps, %llu of them beside the walks from damaged records, "
           "%llu runs, %llu events and %llu numbers read or written, compared with every byte of their buffers; "
           "%lu differences\n",
           first, first + rounds - 1, compared_steps, compared_records, compared_runs, compared_events, compared_numbers,
           differences);
    return differences == 0 ? 0 : 1;
}
