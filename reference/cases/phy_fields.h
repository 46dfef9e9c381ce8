#ifndef PHY_FIELDS_H
#define PHY_FIELDS_H

#include "phy.h"

/* The order in which cases and lines carry a record. */
enum phy_field {
    FIELD_LINK,
    FIELD_PORT,
    FIELD_TIMER,
    FIELD_DESTINATION,
    FIELD_PROTOCOL,
    FIELD_RATE,
    FIELD_TAG,
    FIELD_BLOCKED,
    FIELD_WAIT,
    FIELD_PART,
    FIELD_REASON,
    FIELD_SOURCE,
    FIELD_INBOUND,
    FIELD_CONNECTION,
    FIELD_FAR_CLOSED,
    FIELD_ACCEPT,
    PHY_FIELDS
};

enum { MOST_FIELD_VALUES = 12 };

struct field_values {
    size_t count;
    uint64_t values[MOST_FIELD_VALUES];
};

/* By the field: the ends of its ranges and what lies just outside. */
extern const struct field_values phy_field_values[PHY_FIELDS];

void request_to_arguments(const struct phy_request *request, uint64_t out[PHY_ARGUMENTS]);
void phy_to_fields(const struct phy *phy, uint64_t fields[PHY_FIELDS]);
struct phy phy_from_fields(const uint64_t fields[PHY_FIELDS]);

#endif
