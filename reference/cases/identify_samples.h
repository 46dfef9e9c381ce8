#ifndef IDENTIFY_SAMPLES_H
#define IDENTIFY_SAMPLES_H

#include "identify.h"

#include <stddef.h>

enum { IDENTIFY_SCRIPT_ITEMS = 14 };

/* Every bit but those of the type, and the type's lowest bit alone. */
#define TYPE_IDENTIFY UINT64_C(0xF0FFFFFF)
#define TYPE_OTHER UINT64_C(0x01000000)
#define DWORD_MOST UINT64_C(0xFFFFFFFF)
#define DWORD_PAST UINT64_C(0x100000000)

struct identify_event_case {
    uint64_t event;
    uint64_t argument;
};

struct identify_item {
    unsigned repeat;
    uint64_t event;
    uint64_t argument;
};

/* Every event, known or not, with arguments in and out of its range. */
extern const struct identify_event_case identify_probes[];
extern const size_t identify_probe_count;

/* From the fresh state; a script's items end with a repeat of 0. */
extern const struct identify_item identify_scripts[][IDENTIFY_SCRIPT_ITEMS];
extern const size_t identify_script_count;

#endif
