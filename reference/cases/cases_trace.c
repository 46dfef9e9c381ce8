#include "cases.h"

#include "case_trace.h"
#include "number.h"
#include "stamp_samples.h"

#include <string.h>

enum {
    /* What the copy is filled with, so that what no event was written over shows. */
    UNTOUCHED = 0xFF,
    MOST_EVENTS = MOST_LISTED_EVENTS,
    SHORT_EVENTS = 8,
    DAMAGED_TRACES = 3,
    RANDOM_TRACES = 10,
    RANDOM_DAMAGES = 250,
    PADDED_TRACES = 8,
    PADDED_EVENTS = 25,
    PADDED_DAMAGES = 60,
    STAMPED_TRACES = 5,
    STAMPED_EVENTS = 50,
    STAMPED_DAMAGES = 50
};

struct event_list {
    size_t count;
    struct phy_event events[MOST_EVENTS];
};

/* An event is written again where it was read: what only its padding took stays untouched. */
static void trace_case(struct case_file *file, const struct byte_string *trace)
{
    uint8_t copy[STRING_ROOM];
    size_t place = 0;
    struct event_read got = event_read(trace->bytes, trace->length, place);

    case_number(file, KIND_TRACE);
    case_bytes(file, trace->bytes, trace->length);
    memset(copy, UNTOUCHED, trace->length);
    while (got.found == FOUND_EVENT) {
        expect_event_read(file, KIND_TRACE, &got);
        event_write(&got.event, copy, trace->length, place);
        place = got.next;
        got = event_read(trace->bytes, trace->length, place);
    }
    expect_event_read(file, KIND_TRACE, &got);
    expect_repeats(file, KIND_TRACE, copy, trace->length);
}

static struct byte_string trace_of(const struct event_list *list, size_t groups)
{
    struct byte_string trace = {.length = 0};

    for (size_t i = 0; i < list->count; i++) {
        add_padded_event(&trace, &list->events[i], groups);
    }
    return trace;
}

static struct byte_string randomly_padded_trace_of(
    struct case_file *file, const struct event_list *list, size_t most)
{
    struct byte_string trace = {.length = 0};

    for (size_t i = 0; i < list->count; i++) {
        add_randomly_padded_event(file, &trace, &list->events[i], most);
    }
    return trace;
}

/* ---- Damage, at every place in turn ---- */

static void cut_everywhere(struct case_file *file, struct byte_string trace)
{
    while (trace.length > 0) {
        trace.length--;
        trace_case(file, &trace);
    }
}

static void change_every_byte(struct case_file *file, const struct byte_string *trace)
{
    for (size_t i = 0; i < trace->length; i++) {
        const uint8_t changed[] = {0x00, 0xFF, trace->bytes[i] ^ 0x80, (uint8_t)case_random(file)};

        for (size_t k = 0; k < sizeof changed; k++) {
            struct byte_string damaged = *trace;

            damaged.bytes[i] = changed[k];
            trace_case(file, &damaged);
        }
    }
}

static void damage_everywhere(struct case_file *file, const struct event_list *list)
{
    struct byte_string trace = trace_of(list, SHORTEST);

    trace_case(file, &trace);
    cut_everywhere(file, trace);
    change_every_byte(file, &trace);
}

/* ---- Padding, at every number in turn: the places behind it move, the events stay ---- */

static void pad_number(struct case_file *file, const struct event_list *list, size_t hit, size_t which)
{
    struct byte_string trace = {.length = 0};

    for (size_t i = 0; i < list->count; i++) {
        if (i == hit) {
            add_event_padded_at(&trace, &list->events[i], which, NUMBER_MOST_BYTES);
        } else {
            add_event(&trace, &list->events[i]);
        }
    }
    trace_case(file, &trace);
}

static void pad_every_number(struct case_file *file, const struct event_list *list)
{
    for (size_t hit = 0; hit < list->count; hit++) {
        for (size_t which = 0; which < event_numbers(&list->events[hit]); which++) {
            pad_number(file, list, hit, which);
        }
    }
}

/* ---- Whole traces ---- */

static struct event_list every_code(void)
{
    struct event_list list = {.count = 0};

    for (uint64_t code = EVENT_TX_OPEN; code <= EVENT_PHY_DISABLED; code++) {
        list.events[list.count++] = sample_event(code);
    }
    return list;
}

static void all_valid_events(struct case_file *file, size_t groups)
{
    struct event_list list;

    list.count = list_valid_events(list.events);

    struct byte_string trace = trace_of(&list, groups);

    trace_case(file, &trace);
}

/* As long as a case allows, to the last byte; then with its last event cut. */
static void longest_trace(struct case_file *file, const struct phy_event *repeated)
{
    struct byte_string event = event_string(repeated, SHORTEST);
    struct byte_string trace = {.length = 0};

    while (trace.length + event.length <= STRING_ROOM) {
        add_string(&trace, &event);
    }
    add_fill(&trace, EVENT_TICK, STRING_ROOM - trace.length);
    trace_case(file, &trace);
    trace.length -= event.length;
    trace_case(file, &trace);
}

static uint64_t random_address(struct case_file *file)
{
    uint64_t address = case_random(file);

    return address >> case_random_below(file, 64);
}

static struct phy_event random_wide_event(struct case_file *file)
{
    static const uint64_t with_arguments[] = {EVENT_TX_OPEN, EVENT_OPEN_RECEIVED, EVENT_OPEN_REJECT};
    uint64_t code = EVENT_TX_OPEN + case_random_below(file, EVENT_PHY_DISABLED);

    if (case_random_one_in(file, 3)) {
        code = case_random_of(file, with_arguments, sizeof with_arguments / sizeof with_arguments[0]);
    }

    struct phy_event event = random_event_of(file, code);

    if (code == EVENT_TX_OPEN || code == EVENT_OPEN_RECEIVED) {
        event.argument[0] = random_address(file);
    }
    return event;
}

typedef struct phy_event event_maker(struct case_file *file);

static struct event_list random_list(struct case_file *file, event_maker *make, size_t count)
{
    struct event_list list = {.count = 0};

    while (list.count < count) {
        list.events[list.count++] = make(file);
    }
    return list;
}

static void random_damaged_trace(struct case_file *file, event_maker *make, size_t most)
{
    struct event_list list = random_list(file, make, 1 + (size_t)case_random_below(file, SHORT_EVENTS));
    struct byte_string trace = randomly_padded_trace_of(file, &list, most);

    random_damage(file, &trace);
    trace_case(file, &trace);
}

static void random_traces(struct case_file *file)
{
    for (int i = 0; i < DAMAGED_TRACES; i++) {
        struct event_list list = random_list(file, random_wide_event, SHORT_EVENTS);

        damage_everywhere(file, &list);
        pad_every_number(file, &list);
    }
    for (int i = 0; i < RANDOM_TRACES; i++) {
        struct event_list list = random_list(file, random_wide_event, MOST_EVENTS);
        struct byte_string trace = trace_of(&list, SHORTEST);

        trace_case(file, &trace);
    }
    for (int i = 0; i < RANDOM_DAMAGES; i++) {
        random_damaged_trace(file, random_wide_event, SHORTEST);
    }
}

static void random_padded_traces(struct case_file *file)
{
    for (int i = 0; i < PADDED_TRACES; i++) {
        struct event_list list = random_list(file, random_wide_event, PADDED_EVENTS);
        struct byte_string trace = randomly_padded_trace_of(file, &list, NUMBER_MOST_BYTES);

        trace_case(file, &trace);
    }
    for (int i = 0; i < PADDED_DAMAGES; i++) {
        random_damaged_trace(file, random_wide_event, NUMBER_MOST_BYTES);
    }
}

void make_whole_trace_cases(struct case_file *file)
{
    const struct byte_string empty = {.length = 0};
    const struct event_list codes = every_code();

    trace_case(file, &empty);
    damage_everywhere(file, &codes);
    pad_every_number(file, &codes);
    cut_everywhere(file, trace_of(&codes, 2));
    all_valid_events(file, SHORTEST);
    all_valid_events(file, NUMBER_MOST_BYTES);
    longest_trace(file, &widest_tx_open);
    random_traces(file);
    random_padded_traces(file);
}

/* ---- Whole traces with stamps ---- */

/* A tick behind each, and a stamp between any two of the other codes. */
static struct event_list all_stamps(void)
{
    struct event_list list = {.count = 0};

    for (size_t i = 0; i < counter_count; i++) {
        list.events[list.count++] = stamp_at(counters[i]);
        list.events[list.count++] = plain_event(EVENT_TICK);
    }
    for (uint64_t code = EVENT_TX_OPEN; code <= EVENT_PHY_DISABLED; code++) {
        list.events[list.count++] = sample_event(code);
        list.events[list.count++] = stamp_at(counters[code % counter_count]);
    }
    return list;
}

static struct event_list few_stamps(void)
{
    return (struct event_list){.count = SHORT_EVENTS, .events = {
        stamp_at(BAY_MOST_COUNTER - 999), sample_event(EVENT_TX_OPEN), stamp_at(0), plain_event(EVENT_TICK),
        stamp_at(16384), sample_event(EVENT_OPEN_REJECT), stamp_at(300), stamp_at(BAY_MOST_COUNTER)
    }};
}

static struct phy_event random_stamped_event(struct case_file *file)
{
    if (case_random_one_in(file, 2)) {
        return stamp_at(random_counter(file));
    }
    return case_random_one_in(file, 2) ? plain_event(EVENT_TICK) : random_wide_event(file);
}

static void random_stamped_traces(struct case_file *file)
{
    for (int i = 0; i < STAMPED_TRACES; i++) {
        struct event_list list = random_list(file, random_stamped_event, STAMPED_EVENTS);
        struct byte_string trace = trace_of(&list, SHORTEST);
        struct byte_string padded = randomly_padded_trace_of(file, &list, NUMBER_MOST_BYTES);

        trace_case(file, &trace);
        trace_case(file, &padded);
    }
    for (int i = 0; i < STAMPED_DAMAGES; i++) {
        random_damaged_trace(file, random_stamped_event, SHORTEST);
        random_damaged_trace(file, random_stamped_event, NUMBER_MOST_BYTES);
    }
}

void make_stamped_trace_cases(struct case_file *file)
{
    const struct event_list all = all_stamps();
    const struct event_list few = few_stamps();
    const struct phy_event widest = stamp_at(BAY_MOST_COUNTER);

    for (size_t groups = SHORTEST; groups <= NUMBER_MOST_BYTES; groups++) {
        struct byte_string trace = trace_of(&all, groups);

        trace_case(file, &trace);
    }
    damage_everywhere(file, &few);
    pad_every_number(file, &few);
    cut_everywhere(file, trace_of(&few, 7));
    longest_trace(file, &widest);
    random_stamped_traces(file);
}
