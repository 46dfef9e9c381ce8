/*
 * Traces written, damaged, read and run, and the numbers in them.
 */
#include <string.h>

#include "differ.h"
#include "inputs.h"
#include "number.h"
#include "refusals.h"
#include "run.h"
#include "trace.h"

enum { TRACE_EVENTS = 24 };

/* ---- Traces ---- */

uint8_t trace[MOST_TRACE];

void fill_both(uint8_t *ours, uint8_t *theirs, size_t length)
{
    for (size_t i = 0; i < length; i++) {
        ours[i] = theirs[i] = (uint8_t)random_below(256);
    }
}

static size_t write_both(struct louravela_event event, size_t length, size_t place)
{
    uint8_t ours[MOST_TRACE];
    uint8_t theirs[MOST_TRACE];
    struct phy_event their = their_event(&event);
    struct louravela_write_reply our_word;
    struct event_written their_word;

    memcpy(ours, trace, sizeof ours);
    memcpy(theirs, trace, sizeof theirs);
    our_word = louravela_event_write(event, ours, length, place);
    their_word = event_write(&their, theirs, length, place);
    compared_events++;
    same("an event written, its refusal", our_word.refusal, their_word.refusal);
    same("an event written, its length", our_word.length, their_word.length);
    same_bytes("a buffer after an event", ours, theirs, sizeof ours);
    memcpy(trace, ours, sizeof trace);
    return our_word.length;
}

/* At any place, past the end too, and into buffers that may be too short. */
static size_t write_trace(void)
{
    size_t length = 0;
    size_t room = MOST_TRACE - random_below(MOST_TRACE / 2);

    for (int i = 0; i < TRACE_EVENTS; i++) {
        length += write_both(one_in(16) ? random_event() : known_event(), room, length);
        write_both(random_event(), length + random_below(12), one_in(16) ? (size_t)random_any() : length);
    }
    return length;
}

/* Each number with zero groups at its end, up to its ten, where they have room. */
size_t padded_trace(size_t length)
{
    uint8_t padded[MOST_TRACE];
    size_t at = 0;
    size_t next;

    for (size_t place = 0; place < length; place = next) {
        size_t groups;
        size_t more;

        next = number_read(trace, length, place).next;
        groups = next - place;
        if (groups == 0) {
            return length; /* a fault, and the writer has written none */
        }
        more = random_below(NUMBER_MOST_BYTES + 1 - groups);
        memcpy(padded + at, trace + place, groups);
        at += groups;
        if (more > 0 && at + more + (length - next) <= MOST_TRACE) {
            padded[at - 1] |= 0x80u;
            memset(padded + at, 0x80, more - 1);
            padded[at + more - 1] = 0;
            at += more;
        }
    }
    memcpy(trace, padded, at);
    return at;
}

size_t damaged_trace(size_t length)
{
    if (length > 0 && one_in(2)) {
        for (uint64_t times = 1 + random_below(3); times > 0; times--) {
            trace[random_below(length)] = (uint8_t)(one_in(2) ? 0x80u | random_below(128) : random_below(19));
        }
    }
    return one_in(3) ? (size_t)random_below(length + 1) : length;
}

static void read_both(size_t length, size_t place)
{
    struct louravela_event_reply ours = louravela_event_read(trace, length, place);
    struct event_read theirs = event_read(trace, length, place);
    struct phy_event our_event = their_event(&ours.event);

    compared_events++;
    same("what stands at a place", ours.how, theirs.found);
    same("a fault", ours.refusal, theirs.refusal);
    same("the place reached", ours.next, theirs.next);
    same("an event's code", our_event.code, theirs.event.code);
    for (size_t i = 0; i < PHY_ARGUMENTS; i++) {
        same("an event's argument", our_event.argument[i], theirs.event.argument[i]);
    }
}

static void same_ran(const struct louravela_run_reply *ours, const struct run_result *theirs)
{
    same("a run's refusal", ours->refusal, theirs->refusal);
    same("a run's count", ours->count, theirs->count);
    same("how a run stopped", ours->how, theirs->stop);
    same("a run's fault", ours->fault, theirs->fault);
    same("a run's place", ours->place, theirs->place);
    same_bay(&ours->next, &theirs->bay);
}

static void run_both(struct louravela_phy phy, size_t length, size_t budget, size_t room)
{
    uint8_t ours[MOST_TRACE];
    uint8_t theirs[MOST_TRACE];
    struct run_trace bytes = {trace, length};
    struct run_buffer buffer = {theirs, room};
    struct louravela_run_reply our_word;
    struct run_result their_word;

    fill_both(ours, theirs, MOST_TRACE);
    our_word = louravela_phy_run(phy, trace, length, budget, ours, room);
    their_word = run(their_phy(&phy), bytes, budget, buffer);
    compared_runs++;
    same_ran(&our_word, &their_word);
    same_bytes("a buffer after a run", ours, theirs, MOST_TRACE);
}

void walk_trace(struct louravela_phy phy)
{
    size_t length;

    for (size_t i = 0; i < MOST_TRACE; i++) {
        trace[i] = (uint8_t)random_below(256);
    }
    length = write_trace();
    length = damaged_trace(one_in(2) ? padded_trace(length) : length);
    for (size_t place = 0; place <= length; place++) {
        read_both(length, place);
    }
    read_both(length, (size_t)random_any());
    for (int i = 0; i < 8; i++) {
        size_t budget = random_below(2 * TRACE_EVENTS + 2);
        size_t room = one_in(4) ? (size_t)random_below(budget + 1) : budget + random_below(8);

        run_both(one_in(4) ? damaged_phy(phy) : phy, length, one_in(16) ? (size_t)random_any() : budget, room);
        run_both(louravela_phy_fresh(), length, budget, room);
    }
}

/* ---- Numbers ---- */

static void read_numbers(const uint8_t *bytes, size_t length, size_t place)
{
    struct louravela_number_reply ours = louravela_number_read(bytes, length, place);
    struct number_read theirs = number_read(bytes, length, place);

    compared_numbers++;
    same("a number read, its refusal", ours.refusal, theirs.refusal);
    same("a number read", ours.value, theirs.value);
    same("the place after a number", ours.next, theirs.next);
}

static void write_numbers(uint64_t value, size_t length, size_t place)
{
    uint8_t ours[2 * NUMBER_MOST_BYTES];
    uint8_t theirs[2 * NUMBER_MOST_BYTES];
    struct louravela_write_reply our_word;
    struct number_written their_word;

    fill_both(ours, theirs, sizeof ours);
    our_word = louravela_number_write(value, ours, length, place);
    their_word = number_write(value, theirs, length, place);
    compared_numbers++;
    same("a number written, its refusal", our_word.refusal, their_word.refusal);
    same("a number written, its length", our_word.length, their_word.length);
    same_bytes("a buffer after a number", ours, theirs, sizeof ours);
}

void walk_numbers(void)
{
    uint8_t bytes[2 * NUMBER_MOST_BYTES];

    for (int i = 0; i < 32; i++) {
        for (size_t k = 0; k < sizeof bytes; k++) {
            bytes[k] = (uint8_t)(one_in(8) ? random_below(4) : 0x80u | random_below(128));
        }
        read_numbers(bytes, (size_t)random_below(sizeof bytes + 1), (size_t)random_below(sizeof bytes + 2));
        write_numbers(random_any(), (size_t)random_below(sizeof bytes + 1),
                      one_in(16) ? (size_t)random_any() : (size_t)random_below(NUMBER_MOST_BYTES));
    }
}
