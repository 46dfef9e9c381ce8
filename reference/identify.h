#ifndef IDENTIFY_H
#define IDENTIFY_H

#include <stdbool.h>
#include <stdint.h>

enum {
    IDENTIFY_FRAME_DWORDS = 8,
    IDENTIFY_TIMER_START = 1000
};

enum identify_receiver {
    RECEIVER_IDLE = 0,
    RECEIVER_RECEIVING = 1,
    RECEIVER_SPOILED = 2,
    RECEIVER_COMPLETED = 3
};

enum identify_event {
    IDENTIFY_SOAF = 0,
    IDENTIFY_DATA_DWORD = 1,
    IDENTIFY_EOAF = 2,
    IDENTIFY_HARD_RESET = 3,
    IDENTIFY_OTHER_PRIMITIVE = 4,
    IDENTIFY_FRAME_SENT = 5,
    IDENTIFY_TICK = 6,
    IDENTIFY_ENABLE = 7
};

/* Reports; all but Failed are the outcomes too. */
enum identify_report {
    IDENTIFY_NONE = 0,
    IDENTIFY_FAILED = 1,
    IDENTIFY_COMPLETE = 2,
    IDENTIFY_TIME_OUT = 3,
    IDENTIFY_RESET_RECEIVED = 4
};

/* is_identify, got and sent are flags, 0 or 1; a record with any other number there is no valid one. */
struct identify {
    uint64_t receiver;
    uint64_t count;
    uint64_t is_identify;
    uint64_t got;
    uint64_t sent;
    uint64_t timer;
    uint64_t outcome;
};

struct identify_result {
    uint64_t refusal;
    uint64_t report;
    struct identify state;
};

struct identify identify_fresh(void);
bool identify_is_valid(const struct identify *state);

/* The argument is the dword of a data dword, 1 or 0 for the CRC of an EOAF, and 0 for the rest. */
struct identify_result identify_step(struct identify state, uint64_t event, uint64_t argument);

#endif
