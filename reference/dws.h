#ifndef DWS_H
#define DWS_H

#include <stdint.h>

/* The paper numbers the states; the names are those of the standard's SP_DWS0 to SP_DWS9. */
enum dws_state {
    DWS_ACQUIRE_SYNC = 0,
    DWS_VALID_1 = 1,
    DWS_VALID_2 = 2,
    DWS_SYNC_ACQUIRED = 3,
    DWS_LOST_1 = 4,
    DWS_LOST_1_RECOVERED = 5,
    DWS_LOST_2 = 6,
    DWS_LOST_2_RECOVERED = 7,
    DWS_LOST_3 = 8,
    DWS_LOST_3_RECOVERED = 9,
    DWS_STATES = 10
};

enum dws_event {
    DWS_INVALID_DWORD = 0,
    DWS_DATA_DWORD = 1,
    DWS_PRIMITIVE = 2,
    DWS_RESTART = 3,
    DWS_EVENTS = 4
};

enum dws_report {
    DWS_NO_REPORT = 0,
    DWS_ACQUIRED = 1,
    DWS_LOST = 2
};

struct dws_result {
    uint64_t refusal;
    uint64_t state;
    uint64_t report;
};

struct dws_result dws_step(uint64_t state, uint64_t event);

#endif
