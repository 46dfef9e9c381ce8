#ifndef PHY_SAMPLES_H
#define PHY_SAMPLES_H

#include "case_file.h"
#include "phy.h"

enum {
    MOST_ARGUMENT_VALUES = 8,
    MOST_LISTED_EVENTS = 100,
    SCRIPT_ITEMS = 10,
    WANTED_ADDRESS = 5,
    OTHER_ADDRESS = 8,
    /* A wait that counts milliseconds, far from both ends of its slope. */
    SECOND_SLOPE_WAIT = 40000
};

/* Added to a number, they leave its low 8 or 32 bits as they were. */
#define PAST_8_BITS UINT64_C(256)
#define PAST_32_BITS (UINT64_C(1) << 32)

struct phy_item {
    uint64_t repeat;
    struct phy_event event;
};

/* Items of a script. */
#define PLAIN(repeat, code) {repeat, {code, {0}}}
#define TX_OPEN(to, protocol, wait) {1, {EVENT_TX_OPEN, {to, protocol, RATE_3_GBPS, 300, 2, wait}}}
#define OPEN_FROM(source, protocol) {1, {EVENT_OPEN_RECEIVED, {source, protocol, 0, 0, 0, 0}}}
#define REJECTED(reason) {1, {EVENT_OPEN_REJECT, {reason, 0, 0, 0, 0, 0}}}

/* The ends of one argument's range and what lies just outside. */
struct argument_ends {
    uint64_t code;
    size_t which;
    size_t count;
    uint64_t values[MOST_ARGUMENT_VALUES];
};

extern const struct argument_ends argument_ends[];
extern const size_t argument_ends_count;

/* Valid, and as long as one can be. */
extern const struct phy_event widest_tx_open;

/* Every refusal of a step, and answers and notices between them. */
extern const struct phy_event phy_tour[];
extern const size_t phy_tour_count;

/* From a fresh phy; a script's items end with a repeat of 0. */
extern const struct phy_item phy_scripts[][SCRIPT_ITEMS];
extern const size_t phy_script_count;

struct phy_event plain_event(uint64_t code);
struct phy_event sample_event(uint64_t code);

/* Every code, every argument at its ends and just outside, all of them at their ends, and unknown codes. */
size_t list_events(struct phy_event events[MOST_LISTED_EVENTS]);
size_t list_valid_events(struct phy_event events[MOST_LISTED_EVENTS]);

/* Every field the pair uses is in its range; the pair itself need not be a valid one. */
struct phy sample_record(uint64_t link, uint64_t port, size_t variant);
size_t variant_count(uint64_t link, uint64_t port);

/* A code that the link state is likely to do something with. */
uint64_t random_likely_code(struct case_file *file, uint64_t link);

/* With arguments in their ranges. */
struct phy_event random_event_of(struct case_file *file, uint64_t code);

#endif
